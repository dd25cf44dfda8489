//! Claims as the archive's file system stores them, written from documents 01 and 02 alone: lists of POSIX advisory record
//! locks read as claims, and claims written as such locks. Sums are made in 128 bits, which hold that of any two numbers of
//! 64; nothing is assumed of what is lent.

use crate::machine::{refuse, READS, WRITES};
use std::ops::Range;

/// "Read and write a list of those: type (1 read, 2 write), start and signed length from the beginning of the file."
pub type Lock = [i64; 3];

/// "Import gives" the numbers that reserve takes: start, end and kind.
pub type Claim = [u32; 3];

/// A record has three words on either side. A rest at the end of a list is no record, and no room for one.
pub const RECORD_WORDS: usize = 3;

/// Why nothing was moved, and the place of the record that is to blame; 0 if it is none of them.
pub type NotMoved = (u32, usize);

/// "Positive length covers start to start + length − 1; negative covers start + length to start − 1; 0, open-ended in POSIX,
/// here reaches to the title's end." The run's end is not included, as in a claim.
fn run_of(title: u32, start: i64, length: i64) -> Range<i128> {
    let [start, length] = [start, length].map(i128::from);
    match length {
        1.. => start..start + length,
        0 => start..i128::from(title),
        _ => start + length..start,
    }
}

/// "Import 12 (the run starts below 0, is empty, or its end is past 4,294,967,295), 13 (unknown type), 11."
fn claim_of(title: u32, [kind, start, length]: Lock) -> Result<Claim, u32> {
    let run = run_of(title, start, length);
    refuse(12, run.start < 0 || run.is_empty() || run.end > 4_294_967_295)?;
    refuse(13, kind != i64::from(READS) && kind != i64::from(WRITES))?;
    refuse(11, run.end > i128::from(title))?;
    Ok([run.start as u32, run.end as u32, kind as u32])
}

/// "Export 3, 11, 4"; it "gives back positive lengths, and 0 exactly where the claim ends at the title's end".
fn lock_of(title: u32, [start, end, kind]: Claim) -> Result<Lock, u32> {
    refuse(3, start >= end)?;
    refuse(11, end > title)?;
    refuse(4, kind != READS && kind != WRITES)?;
    let length = if end == title { 0 } else { end - start };
    Ok([kind, start, length].map(i64::from))
}

/// 02: "3 if the title's count is 0; [...] last 9, output list too short." 01: "A call over several records [...] refuses all
/// of them for the first bad one and gives its place from 0", and leaves every list as found. Later words stay.
fn move_all<Given: Copy, Made: Copy>(
    title: u32,
    from: &[Given],
    to: &mut [Made],
    moved: fn(u32, [Given; RECORD_WORDS]) -> Result<[Made; RECORD_WORDS], u32>,
) -> Result<(), NotMoved> {
    refuse(3, title == 0).map_err(|refusal| (refusal, 0))?;
    let mut records = Vec::new();
    for (place, words) in from.chunks_exact(RECORD_WORDS).enumerate() {
        let record = words.try_into().expect("a chunk is a record");
        records.push(moved(title, record).map_err(|refusal| (refusal, place))?);
    }
    refuse(9, to.len() / RECORD_WORDS < records.len()).map_err(|refusal| (refusal, 0))?;
    for (words, record) in to.chunks_exact_mut(RECORD_WORDS).zip(records) {
        words.copy_from_slice(&record);
    }
    Ok(())
}

pub fn import(title: u32, locks: &[i64], claims: &mut [u32]) -> Result<(), NotMoved> {
    move_all(title, locks, claims, claim_of)
}

pub fn export(title: u32, claims: &[u32], locks: &mut [i64]) -> Result<(), NotMoved> {
    move_all(title, claims, locks, lock_of)
}
