//! The calls of the library as plain functions with one word back, two where a list is moved: the form in which machines are
//! compared and linked. Answers: the kind in the high 32 bits (0 refused, 1 node, 2 out, 3 on, 4 wait, 5 held, 6 back), the
//! number, or 0, below.
//! A machine that stands in for this one offers the same functions under the same names; `proved.rs` does.

use crate::machine::{Answer, Profile};
use crate::posix;
use crate::script;

/// A script's numbers: N, S, K and the title's frame count, then five for each of 1,000 rows.
pub const CONTENTS_WORDS: usize = 4;
pub type Numbers = [u32; CONTENTS_WORDS + 5 * script::MOST_ROWS];

/// Room for what the program prints.
pub type Printed = [u8; 49152];

/// What `wait` carries beside its node: the first shared frame, and the end of the shared run.
pub type Shared = [u32; 2];

/// What import and export give back: 0 or the refusal, and the place of the bad record, or 0.
pub type Moved = (u32, usize);

fn answer_word(answer: Result<Answer, u32>) -> u64 {
    let (kind, number) = match answer {
        Err(refusal) => (0, refusal),
        Ok(Answer::Node(node)) => (1, node),
        Ok(Answer::Out) => (2, 0),
        Ok(Answer::On) => (3, 0),
        Ok(Answer::Wait { node, .. }) => (4, node),
        Ok(Answer::Held) => (5, 0),
        Ok(Answer::Back) => (6, 0),
    };
    kind << 32 | u64::from(number)
}

/// An accepted count n as 2³² + n, a refusal k as k.
fn count_word(count: Result<u32, u32>) -> u64 {
    match count {
        Ok(count) => 1 << 32 | u64::from(count),
        Err(refusal) => u64::from(refusal),
    }
}

// The calls on tables come twice, for the ordinary profile and for that of sheets, as the archive has two names for each.

const fn profile(sheet: bool) -> Profile {
    if sheet {
        Profile::Sheet
    } else {
        Profile::Ordinary
    }
}

/// 0, or the refusal.
pub fn clear<const SHEET: bool>(nodes: &mut [u32], seats: &mut [u32], title: u32) -> u64 {
    u64::from(profile(SHEET).clear(nodes, seats, title).err().unwrap_or(0))
}

pub fn reserve<const SHEET: bool>(
    nodes: &mut [u32],
    seats: &mut [u32],
    seat: u32,
    start: u32,
    end: u32,
    kind: u32,
) -> u64 {
    answer_word(profile(SHEET).reserve(nodes, seats, seat, start, end, kind))
}

pub fn enter<const SHEET: bool>(nodes: &[u32], seats: &mut [u32], seat: u32) -> u64 {
    answer_word(profile(SHEET).enter(nodes, seats, seat))
}

/// `shared` is written if the answer is `wait`.
pub fn step<const SHEET: bool>(nodes: &mut [u32], seats: &mut [u32], seat: u32, shared: &mut Shared) -> u64 {
    let answer = profile(SHEET).step(nodes, seats, seat);
    if let Ok(Answer::Wait { first, end, .. }) = answer {
        *shared = [first, end];
    }
    answer_word(answer)
}

pub fn release<const SHEET: bool>(nodes: &mut [u32], seats: &mut [u32], seat: u32) -> u64 {
    answer_word(profile(SHEET).release(nodes, seats, seat))
}

/// The refusal in the high 32 bits, the steps below.
pub fn run<const SHEET: bool>(nodes: &mut [u32], seats: &mut [u32], entries: &[u32], budget: u32) -> u64 {
    let (steps, refusal) = profile(SHEET).run(nodes, seats, entries, budget);
    u64::from(refusal) << 32 | u64::from(steps)
}

/// Rows of four words each, as many as there are whole ones; `covered` is written if the call is accepted.
pub fn board<const SHEET: bool>(nodes: &[u32], seats: &[u32], rows: &mut [u32], covered: &mut u64) -> u64 {
    let shown = profile(SHEET).board(nodes, seats, rows);
    if let Ok((_, frames)) = shown {
        *covered = frames;
    }
    count_word(shown.map(|(count, _)| count))
}

pub fn free_count<const SHEET: bool>(nodes: &[u32], seats: &[u32]) -> u64 {
    count_word(profile(SHEET).free_count(nodes, seats))
}

/// 0; or 10 in the high 32 bits and the first wrong line below, and the numbers stay.
pub fn read(bytes: &[u8], numbers: &mut Numbers) -> u64 {
    match script::read_script(bytes) {
        Ok(script) => {
            let contents = [script.nodes, script.seats, script.count, script.title];
            numbers.copy_from_slice(&[&contents, script.rows.concat().as_slice()].concat());
            0
        }
        Err(line) => 10 << 32 | u64::from(line),
    }
}

/// How many bytes the program prints; those behind them stay.
pub fn play(bytes: &[u8], printed: &mut Printed) -> u64 {
    let text = script::play(bytes);
    printed[..text.len()].copy_from_slice(text.as_bytes());
    text.len() as u64
}

pub fn import(title: u32, locks: &[i64], claims: &mut [u32]) -> Moved {
    posix::import(title, locks, claims).err().unwrap_or((0, 0))
}

pub fn export(title: u32, claims: &[u32], locks: &mut [i64]) -> Moved {
    posix::export(title, claims, locks).err().unwrap_or((0, 0))
}
