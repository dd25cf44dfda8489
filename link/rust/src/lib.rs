#![doc = include_str!("../README.md")]

mod answers;
mod archive;
pub mod lent;
mod locks;
mod script;
mod tables;

pub use answers::{Answer, BadScript, Claim, Kind, Lock, NotMoved, Ran, Refused, Row, Shown};
pub use locks::{export, import};
pub use script::{play, read, Line, Script};
pub use tables::{Board, Sheet, Tables};
