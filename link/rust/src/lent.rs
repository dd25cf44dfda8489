//! The calls on tables and lists that stay the caller's: lent slices, as the archive takes them. Any slices and any numbers will do, and a
//! refused call changes nothing. For who mirrors the tables on every store: a refused call, the board and the free count store nothing in
//! them, not even what stands there already, where nodes are taken off the list only the links that differ are stored, and enter stores two
//! words of its seat. The two tables of a call must be those of one pair; [`Tables`](crate::Tables) keeps them together. The calls on a
//! writers' sheet are in [`sheet`]; what stands at the constants, it has too.

use crate::answers::{answer, cleared, count, moved, ran, stepped, well_formed};
use crate::answers::{Answer, BadScript, Claim, Lock, NotMoved, Ran, Refused, Row, Shown};
use crate::archive;
use std::ops::Range;

/// N is 1 to this.
pub const MOST_NODES: usize = 256;
/// S is 1 to this.
pub const MOST_SEATS: usize = 64;

/// `nodes[HOLDING_READERS]` is how many readers hold, after every call that did not find the tables damaged: a word to be read between
/// calls, and kept by them. A table with another number there is damaged.
pub const HOLDING_READERS: usize = 1;
/// `nodes[HOLDING_WRITERS]` is how many writers hold, likewise.
pub const HOLDING_WRITERS: usize = 2;

/// `nodes[TITLE]` is how many frames the title has, as clear was told: no claim ends beyond it, and only clear writes it. A table with 0
/// there, or less than the end of any node, is damaged.
pub const TITLE: usize = 3;

const ROW_WORDS: usize = std::mem::size_of::<Row>() / std::mem::size_of::<u32>();
const LOCK_WORDS: usize = std::mem::size_of::<Lock>() / std::mem::size_of::<i64>();
const CLAIM_WORDS: usize = std::mem::size_of::<Claim>() / std::mem::size_of::<u32>();

/// Where a script's rows start among its numbers, and how many numbers a row has.
pub(crate) const CONTENTS_NUMBERS: usize = 4;
pub(crate) const LINE_NUMBERS: usize = 5;
const MOST_LINES: usize = 1000;

/// How many numbers a script is read into.
pub const SCRIPT_NUMBERS: usize = CONTENTS_NUMBERS + LINE_NUMBERS * MOST_LINES;
/// Room for what the program prints: at most 48,986 bytes.
pub const PRINTED_BYTES: usize = 49152;

// Safety, of every call below: a slice has as many words as its length says, and what is lent to be changed overlaps nothing else.

/// The calls on tables and the lengths of these, for a set of the archive's: so many words stand before node 1, and a seat has so many.
macro_rules! calls_on_tables {
    ($set:ident, $before_nodes:literal, $of_seat:literal) => {
        /// How many words a table of so many nodes has.
        pub const fn node_words(nodes: usize) -> usize {
            $before_nodes + 5 * nodes
        }

        /// How many words a table of so many seats has.
        pub const fn seat_words(seats: usize) -> usize {
            $of_seat * seats
        }

        /// Writes 0 everywhere but in the title's word, which becomes this frame count, if the lengths are those of 1 to 256 nodes and
        /// 1 to 64 seats, and the title has a frame.
        pub fn clear(nodes: &mut [u32], seats: &mut [u32], title: u32) -> Result<(), Refused> {
            cleared(unsafe {
                archive::$set::clear(nodes.as_mut_ptr(), nodes.len(), seats.as_mut_ptr(), seats.len(), title)
            })
        }

        /// Takes a node for a claim of these frames, none of them beyond the title: the seat has it from then on, though it enters
        /// later. The kind is a [`Kind`](crate::Kind) or a number.
        pub fn reserve(
            nodes: &mut [u32],
            seats: &mut [u32],
            seat: u32,
            frames: Range<u32>,
            kind: impl Into<u32>,
        ) -> Result<Answer, Refused> {
            answer(unsafe {
                archive::$set::reserve(
                    nodes.as_mut_ptr(),
                    nodes.len(),
                    seats.as_mut_ptr(),
                    seats.len(),
                    seat,
                    frames.start,
                    frames.end,
                    kind.into(),
                )
            })
        }

        /// Lets a seat that has reserved a node come in, before the first claim on the list as it is now. The nodes are only read.
        pub fn enter(nodes: &[u32], seats: &mut [u32], seat: u32) -> Result<Answer, Refused> {
            answer(unsafe { archive::$set::enter(nodes.as_ptr(), nodes.len(), seats.as_mut_ptr(), seats.len(), seat) })
        }

        /// One step of a seat that has a claim; of one that has reserved a node, it enters.
        pub fn step(nodes: &mut [u32], seats: &mut [u32], seat: u32) -> Result<Answer, Refused> {
            let mut shared = [0; 2];
            let given = unsafe {
                archive::$set::step(
                    nodes.as_mut_ptr(),
                    nodes.len(),
                    seats.as_mut_ptr(),
                    seats.len(),
                    seat,
                    shared.as_mut_ptr(),
                )
            };
            stepped(given, shared)
        }

        /// Ends the claim of a seat that holds.
        pub fn release(nodes: &mut [u32], seats: &mut [u32], seat: u32) -> Result<Answer, Refused> {
            answer(unsafe {
                archive::$set::release(nodes.as_mut_ptr(), nodes.len(), seats.as_mut_ptr(), seats.len(), seat)
            })
        }

        /// Steps the seats of a schedule in order, within a budget, up to the first that is refused.
        pub fn run(nodes: &mut [u32], seats: &mut [u32], schedule: &[u32], budget: u32) -> Ran {
            ran(unsafe {
                archive::$set::run(
                    nodes.as_mut_ptr(),
                    nodes.len(),
                    seats.as_mut_ptr(),
                    seats.len(),
                    schedule.as_ptr(),
                    schedule.len(),
                    budget,
                )
            })
        }

        /// The holders by rising seat; rows past their number stay.
        pub fn board(nodes: &[u32], seats: &[u32], rows: &mut [Row]) -> Result<Shown, Refused> {
            let mut covered = 0;
            // a row is four words in the archive's order, and nothing else
            let given = unsafe {
                archive::$set::board(
                    nodes.as_ptr(),
                    nodes.len(),
                    seats.as_ptr(),
                    seats.len(),
                    rows.as_mut_ptr().cast(),
                    ROW_WORDS * rows.len(),
                    &mut covered,
                )
            };
            count(given).map(|rows| Shown { rows: rows as usize, covered })
        }

        /// How many nodes are free.
        pub fn free_count(nodes: &[u32], seats: &[u32]) -> Result<u32, Refused> {
            count(unsafe { archive::$set::free_count(nodes.as_ptr(), nodes.len(), seats.as_ptr(), seats.len()) })
        }
    };
}

// the head, the two counts of holders, the title; phase, own, prev, cur
calls_on_tables!(ordinary, 4, 4);

/// The calls on a writers' sheet that stays the caller's, as [`Sheet`](crate::Sheet) has them. A pair of tables belongs to the calls that
/// cleared it, and its lengths come from there: those of a sheet from here. No word in a table says whose it is. On these calls ordinary
/// tables are damaged if they have a reader or a phase that a sheet has not, and else are taken for a sheet: `Tables` and `Sheet` are types
/// of their own, so that neither is lent to the other's calls.
pub mod sheet {
    use super::ROW_WORDS;
    use crate::answers::{answer, cleared, count, ran, stepped};
    use crate::answers::{Answer, Ran, Refused, Row, Shown};
    use crate::archive;
    use std::ops::Range;

    // the same words today; what the ordinary tables are given beside them, a sheet is not
    calls_on_tables!(sheet, 4, 4);
}

/// The numbers of a script: N, S, K and the title's frame count, then five for each of 1,000 rows: a code (v 1, s 2, r 3, e 4), seat,
/// start, end and kind; 0 where the script has none. Of one that is not well formed they stay as they were.
pub fn read(script: &[u8], numbers: &mut [u32; SCRIPT_NUMBERS]) -> Result<(), BadScript> {
    well_formed(unsafe { archive::soodhiqune_read(script.as_ptr(), script.len(), numbers.as_mut_ptr()) })
}

/// What the program prints for a script, `bad L` if it is not well formed: so many bytes. The others stay as they were.
pub fn play(script: &[u8], printed: &mut [u8; PRINTED_BYTES]) -> usize {
    unsafe { archive::soodhiqune_play(script.as_ptr(), script.len(), printed.as_mut_ptr()) as usize }
}

/// The claims that these locks are, into as many places; the others stay. If one lock is refused none is moved, and no place is written.
pub fn import(title: u32, locks: &[Lock], claims: &mut [Claim]) -> Result<(), NotMoved> {
    // a lock is three words in the archive's order, and so is a claim, and nothing else
    let given = unsafe {
        archive::soodhiqune_import(
            title,
            locks.as_ptr().cast(),
            LOCK_WORDS * locks.len(),
            claims.as_mut_ptr().cast(),
            CLAIM_WORDS * claims.len(),
        )
    };
    moved(title, given)
}

/// The locks of these claims, likewise.
pub fn export(title: u32, claims: &[Claim], locks: &mut [Lock]) -> Result<(), NotMoved> {
    let given = unsafe {
        archive::soodhiqune_export(
            title,
            claims.as_ptr().cast(),
            CLAIM_WORDS * claims.len(),
            locks.as_mut_ptr().cast(),
            LOCK_WORDS * locks.len(),
        )
    };
    moved(title, given)
}
