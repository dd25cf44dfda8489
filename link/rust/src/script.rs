//! Scripts, read into values or played.

use crate::answers::BadScript;
use crate::lent::{self, CONTENTS_NUMBERS, LINE_NUMBERS, PRINTED_BYTES, SCRIPT_NUMBERS};

/// A script: how many nodes and seats it asks for, how many frames its title has, and its lines after the first.
#[derive(Clone, Debug, PartialEq, Eq)]
pub struct Script {
    pub nodes: usize,
    pub seats: usize,
    pub title: u32,
    pub lines: Vec<Line>,
}

/// A line of a script. Its numbers are within 32 bits, and the call that it asks for may refuse them.
#[derive(Clone, Copy, Debug, PartialEq, Eq, Hash)]
#[non_exhaustive]
pub enum Line {
    Reserve { seat: u32, start: u32, end: u32, kind: u32 },
    Step { seat: u32 },
    Release { seat: u32 },
    Enter { seat: u32 },
}

impl Line {
    fn of(numbers: &[u32]) -> Line {
        match *numbers {
            [1, seat, start, end, kind] => Line::Reserve { seat, start, end, kind },
            [2, seat, ..] => Line::Step { seat },
            [3, seat, ..] => Line::Release { seat },
            [4, seat, ..] => Line::Enter { seat },
            _ => panic!("the archive that is linked read a line as {numbers:?}, which this package does not know"),
        }
    }
}

/// The script that these bytes are.
pub fn read(script: &[u8]) -> Result<Script, BadScript> {
    let mut numbers = Box::new([0; SCRIPT_NUMBERS]);
    lent::read(script, &mut numbers)?;
    let (contents, lines) = numbers.split_at(CONTENTS_NUMBERS);
    let [nodes, seats, count] = [contents[0], contents[1], contents[2]].map(|number| number as usize);
    let lines = lines.chunks_exact(LINE_NUMBERS).take(count).map(Line::of).collect();
    Ok(Script { nodes, seats, title: contents[3], lines })
}

/// What the program prints for these bytes: `bad L` if they are no script.
pub fn play(script: &[u8]) -> String {
    let mut printed = Box::new([0; PRINTED_BYTES]);
    let count = lent::play(script, &mut printed);
    String::from_utf8_lossy(&printed[..count]).into_owned()
}
