//! What the calls give back, as values with words for people; and how a number of the archive is read as one. A number that the promises
//! of the archive shut out means that another archive was linked, and panics.

use std::error::Error;
use std::fmt::{self, Display, Formatter};
use std::ops::Range;

/// What a claim does with its frames.
#[derive(Clone, Copy, Debug, PartialEq, Eq, Hash)]
pub enum Kind {
    /// It reads them, and may share them with others that read.
    Reads,
    /// It writes them, and shares none.
    Writes,
}

impl From<Kind> for u32 {
    fn from(kind: Kind) -> u32 {
        match kind {
            Kind::Reads => 1,
            Kind::Writes => 2,
        }
    }
}

/// As the type of a [`Lock`].
impl From<Kind> for i64 {
    fn from(kind: Kind) -> i64 {
        u32::from(kind).into()
    }
}

impl TryFrom<u32> for Kind {
    type Error = Refused;

    fn try_from(number: u32) -> Result<Kind, Refused> {
        [Kind::Reads, Kind::Writes].into_iter().find(|&kind| u32::from(kind) == number).ok_or(Refused::NoSuchKind)
    }
}

impl Display for Kind {
    fn fmt(&self, out: &mut Formatter) -> fmt::Result {
        out.write_str(match self {
            Kind::Reads => "reads",
            Kind::Writes => "writes",
        })
    }
}

/// What reserve, enter, step or release answers if it is accepted. It is displayed as the program prints it.
#[derive(Clone, Copy, Debug, PartialEq, Eq, Hash)]
#[non_exhaustive]
pub enum Answer {
    /// Reserve: the claim has this node. Enter it, or step it.
    Node(u32),
    /// Release: the seat is idle again.
    Out,
    /// Enter and step: the claim moved on. Step it again.
    On,
    /// Step: the claim waits at this node, whose claim shares with it all frames from first up to but not including end, and no others.
    /// Step it again once that is released or withdrawn. In tables that these calls have not made, a claim may wait and share no frame:
    /// both are 0.
    Wait { node: u32, first: u32, end: u32 },
    /// Step: the claim holds its frames. The worker may write.
    Held,
    /// Step: the claim was withdrawn, since a reader was there first. Step it again, and it takes a node anew, to enter with. No step on
    /// a writers' sheet answers so.
    Back,
}

impl Answer {
    /// The frames that a claim waits for, if it waits: those that it shares with the claim waited at.
    pub fn shared(self) -> Option<Range<u32>> {
        match self {
            Answer::Wait { first, end, .. } => Some(first..end),
            _ => None,
        }
    }
}

impl Display for Answer {
    fn fmt(&self, out: &mut Formatter) -> fmt::Result {
        match self {
            Answer::Node(node) => write!(out, "node {node}"),
            Answer::Out => out.write_str("out"),
            Answer::On => out.write_str("on"),
            Answer::Wait { node, first, end } => write!(out, "wait {node} {first} {end}"),
            Answer::Held => out.write_str("held"),
            Answer::Back => out.write_str("back"),
        }
    }
}

/// Why a call was refused. It has changed nothing. They stand in the order in which a call looks for them.
#[derive(Clone, Copy, Debug, PartialEq, Eq, Hash)]
#[non_exhaustive]
pub enum Refused {
    /// 1: the tables are damaged; for clear, only their lengths are wrong.
    Damaged,
    /// 2: the seat's number is not below the number of seats.
    NoSuchSeat,
    /// 3, of reserve and export: the claim starts at its end, or behind it.
    EmptyClaim,
    /// 3, of clear, import and export: the title has no frames.
    EmptyTitle,
    /// 12: the lock's run starts below 0, is empty, or its end is past 4,294,967,295.
    NoRun,
    /// 13: the lock's type is neither 1 nor 2.
    NoSuchType,
    /// 11: the claim, or the lock, ends beyond the title.
    BeyondTitle,
    /// 4: the kind is neither 1 nor 2; on a writers' sheet, it is not 2.
    NoSuchKind,
    /// 5: reserve wants an idle seat.
    SeatHasClaim,
    /// 6: step wants a seat with a claim.
    SeatIdle,
    /// 7: release wants a seat that holds.
    NotHolding,
    /// 14: enter wants a seat that has reserved a node and not entered.
    NotReserved,
    /// 8: reserve, or a step that takes a node anew, found no node free. No step on a writers' sheet does.
    NoNodeFree,
    /// 9, of the board: it has fewer rows than there are holders.
    BoardTooShort,
    /// 9, of import and export: there is room for fewer records than there are.
    ListTooShort,
}

impl Refused {
    const ALL: [Refused; 15] = [
        Refused::Damaged,
        Refused::NoSuchSeat,
        Refused::EmptyClaim,
        Refused::EmptyTitle,
        Refused::NoRun,
        Refused::NoSuchType,
        Refused::BeyondTitle,
        Refused::NoSuchKind,
        Refused::SeatHasClaim,
        Refused::SeatIdle,
        Refused::NotHolding,
        Refused::NotReserved,
        Refused::NoNodeFree,
        Refused::BoardTooShort,
        Refused::ListTooShort,
    ];

    /// The number that the program prints as `no k`. Two have number 3, that of a claim and that of a title, and two have number 9, that
    /// of the board and that of a list.
    pub fn number(self) -> u32 {
        match self {
            Refused::Damaged => 1,
            Refused::NoSuchSeat => 2,
            Refused::EmptyClaim | Refused::EmptyTitle => 3,
            Refused::NoRun => 12,
            Refused::NoSuchType => 13,
            Refused::BeyondTitle => 11,
            Refused::NoSuchKind => 4,
            Refused::SeatHasClaim => 5,
            Refused::SeatIdle => 6,
            Refused::NotHolding => 7,
            Refused::NotReserved => 14,
            Refused::NoNodeFree => 8,
            Refused::BoardTooShort | Refused::ListTooShort => 9,
        }
    }

    /// The refusal of this number, of any call on tables but clear.
    fn of(number: u32) -> Refused {
        let of_tables = |refused: &Refused| !matches!(refused, Refused::NoRun | Refused::NoSuchType);
        let known = Refused::ALL.into_iter().filter(of_tables).find(|refused| refused.number() == number);
        known.unwrap_or_else(|| unknown(number))
    }
}

fn unknown(refusal: u32) -> ! {
    panic!("the archive that is linked gave refusal {refusal}, which this package does not know")
}

impl Display for Refused {
    fn fmt(&self, out: &mut Formatter) -> fmt::Result {
        out.write_str(match self {
            Refused::Damaged => "the tables are damaged",
            Refused::NoSuchSeat => "there is no such seat",
            Refused::EmptyClaim => "the claim does not start below its end",
            Refused::EmptyTitle => "the title has no frames",
            Refused::NoRun => "the lock's run starts below 0, is empty, or ends past 4294967295",
            Refused::NoSuchType => "the lock's type is neither 1 (reads) nor 2 (writes)",
            Refused::BeyondTitle => "the claim ends beyond the title",
            Refused::NoSuchKind => "the kind is neither 1 (reads) nor 2 (writes), or it is 1 on a writers' sheet",
            Refused::SeatHasClaim => "the seat has a claim already",
            Refused::SeatIdle => "the seat has no claim",
            Refused::NotHolding => "the seat does not hold",
            Refused::NotReserved => "the seat has no node reserved to enter with",
            Refused::NoNodeFree => "no node is free",
            Refused::BoardTooShort => "the board has fewer rows than there are holders",
            Refused::ListTooShort => "there is room for fewer records than there are",
        })
    }
}

impl Error for Refused {}

/// What a run did: the steps accepted, which stand, and the refusal that it stopped at, if any.
#[derive(Clone, Copy, Debug, PartialEq, Eq, Hash)]
pub struct Ran {
    pub steps: u32,
    pub refused: Option<Refused>,
}

/// A row of a board: a seat that holds, and its claim of the frames from start up to but not including end.
#[derive(Clone, Copy, Debug, Default, PartialEq, Eq, Hash)]
#[repr(C)]
pub struct Row {
    pub seat: u32,
    pub start: u32,
    pub end: u32,
    pub kind: u32,
}

/// How many rows a board has, and the frames that they cover.
#[derive(Clone, Copy, Debug, PartialEq, Eq, Hash)]
pub struct Shown {
    pub rows: usize,
    /// The number of frames that at least one of them covers; at most the title's.
    pub covered: u64,
}

/// A POSIX advisory record lock, as [`import`](crate::import) reads it and [`export`](crate::export) writes it: its numbers are within 64
/// bits, and import may refuse them. Of a `struct flock` with l_whence SEEK_SET, start is l_start and length l_len, and a byte of the lock
/// file stands for a frame; kind is not l_type: on Linux F_RDLCK is 0 and F_WRLCK is 1.
#[derive(Clone, Copy, Debug, Default, PartialEq, Eq, Hash)]
#[repr(C)]
pub struct Lock {
    /// The type: 1 reads, 2 writes.
    pub kind: i64,
    pub start: i64,
    /// Positive: so many frames from start on. Negative: so many before start. 0: all from start to the title's end.
    pub length: i64,
}

/// A claim's numbers as reserve takes them: the frames from start up to but not including end, and what is done with them.
#[derive(Clone, Copy, Debug, Default, PartialEq, Eq, Hash)]
#[repr(C)]
pub struct Claim {
    pub start: u32,
    pub end: u32,
    /// 1 reads, 2 writes.
    pub kind: u32,
}

impl Claim {
    /// The frames that it covers, for [`reserve`](crate::Tables::reserve).
    pub fn frames(self) -> Range<u32> {
        self.start..self.end
    }
}

/// Why no record of a list was moved.
#[derive(Clone, Copy, Debug, PartialEq, Eq, Hash)]
pub struct NotMoved {
    pub refused: Refused,
    /// The place, from 0, of the first bad record. A title without frames and a list too short belong to none.
    pub place: Option<usize>,
}

impl Display for NotMoved {
    fn fmt(&self, out: &mut Formatter) -> fmt::Result {
        match self.place {
            Some(place) => write!(out, "record {place}: {}", self.refused),
            None => self.refused.fmt(out),
        }
    }
}

impl Error for NotMoved {}

/// Why a script is not well formed: refusal 10.
#[derive(Clone, Copy, Debug, PartialEq, Eq, Hash)]
pub enum BadScript {
    /// It has more than 16,384 bytes.
    TooLong,
    /// The first wrong line, from 1.
    Line(u32),
}

impl Display for BadScript {
    fn fmt(&self, out: &mut Formatter) -> fmt::Result {
        match self {
            BadScript::TooLong => out.write_str("the script is too long"),
            BadScript::Line(line) => write!(out, "line {line} of the script is wrong"),
        }
    }
}

impl Error for BadScript {}

// ---- a number of the archive as a value

fn upper(given: u64) -> u32 {
    (given >> 32) as u32
}

fn lower(given: u64) -> u32 {
    given as u32
}

pub(crate) fn cleared(given: u64) -> Result<(), Refused> {
    match lower(given) {
        0 => Ok(()),
        3 => Err(Refused::EmptyTitle),
        number => Err(Refused::of(number)),
    }
}

pub(crate) fn answer(given: u64) -> Result<Answer, Refused> {
    let number = lower(given);
    match upper(given) {
        0 => Err(Refused::of(number)),
        1 => Ok(Answer::Node(number)),
        2 => Ok(Answer::Out),
        3 => Ok(Answer::On),
        5 => Ok(Answer::Held),
        6 => Ok(Answer::Back),
        code => panic!("the archive that is linked gave answer {code}, which this package does not know"),
    }
}

/// Of step, which alone answers wait, with what stands in its two words then.
pub(crate) fn stepped(given: u64, [first, end]: [u32; 2]) -> Result<Answer, Refused> {
    match upper(given) {
        4 => Ok(Answer::Wait { node: lower(given), first, end }),
        _ => answer(given),
    }
}

pub(crate) fn count(given: u64) -> Result<u32, Refused> {
    match upper(given) {
        0 => Err(Refused::of(lower(given))),
        _ => Ok(lower(given)),
    }
}

pub(crate) fn ran(given: u64) -> Ran {
    let refused = match upper(given) {
        0 => None,
        number => Some(Refused::of(number)),
    };
    Ran { steps: lower(given), refused }
}

/// What import and export of the archive give back.
#[derive(Clone, Copy)]
#[repr(C)]
pub(crate) struct Moved {
    pub refusal: u32,
    pub place: usize,
}

/// Of import and export in a title of so many frames: 3 is the title's if it has none.
pub(crate) fn moved(title: u32, given: Moved) -> Result<(), NotMoved> {
    let (refused, place) = match given.refusal {
        0 => return Ok(()),
        3 if title == 0 => (Refused::EmptyTitle, None),
        3 => (Refused::EmptyClaim, Some(given.place)),
        4 => (Refused::NoSuchKind, Some(given.place)),
        9 => (Refused::ListTooShort, None),
        11 => (Refused::BeyondTitle, Some(given.place)),
        12 => (Refused::NoRun, Some(given.place)),
        13 => (Refused::NoSuchType, Some(given.place)),
        number => unknown(number),
    };
    Err(NotMoved { refused, place })
}

pub(crate) fn well_formed(given: u64) -> Result<(), BadScript> {
    match (upper(given), lower(given)) {
        (0, _) => Ok(()),
        (_, 0) => Err(BadScript::TooLong),
        (_, line) => Err(BadScript::Line(line)),
    }
}

#[cfg(test)]
mod tests {
    use super::*;

    #[test]
    fn every_refusal_has_its_number_and_words_of_its_own() {
        assert_eq!(Refused::ALL.map(Refused::number), [1, 2, 3, 3, 12, 13, 11, 4, 5, 6, 7, 14, 8, 9, 9]);
        for (place, &refused) in Refused::ALL.iter().enumerate() {
            let told = match refused {
                Refused::EmptyTitle => cleared(3),
                Refused::NoRun | Refused::NoSuchType | Refused::ListTooShort => moved_by(1, refused.number(), 0),
                _ => answer(refused.number().into()).map(|_| ()),
            };
            assert_eq!(told, Err(refused));
            assert!(Refused::ALL[..place].iter().all(|other| other.to_string() != refused.to_string()));
        }
        assert_eq!([cleared(0), cleared(1)], [Ok(()), Err(Refused::Damaged)]);
    }

    fn moved_by(title: u32, refusal: u32, place: usize) -> Result<(), Refused> {
        moved(title, Moved { refusal, place }).map_err(|not_moved| not_moved.refused)
    }

    #[test]
    fn a_place_is_a_records_and_the_title_and_the_room_have_none() {
        let told = |title, refusal| moved(title, Moved { refusal, place: 5 });
        assert_eq!(told(1, 0), Ok(()));
        for refused in
            [Refused::EmptyClaim, Refused::NoSuchKind, Refused::BeyondTitle, Refused::NoRun, Refused::NoSuchType]
        {
            assert_eq!(told(1, refused.number()), Err(NotMoved { refused, place: Some(5) }));
        }
        assert_eq!(told(0, 3), Err(NotMoved { refused: Refused::EmptyTitle, place: None }));
        assert_eq!(told(1, 9), Err(NotMoved { refused: Refused::ListTooShort, place: None }));
    }

    #[test]
    #[should_panic(expected = "refusal 8")]
    fn a_refusal_that_no_list_has_is_not_taken_for_one_of_ours() {
        let _ = moved_by(1, 8, 0);
    }

    #[test]
    fn wait_takes_its_frames_from_the_two_words_and_no_other_answer_does() {
        assert_eq!(stepped(4 << 32 | 4, [15, 20]), Ok(Answer::Wait { node: 4, first: 15, end: 20 }));
        assert_eq!([3 << 32, 6].map(|given| stepped(given, [15, 20])), [Ok(Answer::On), Err(Refused::SeatIdle)]);
    }

    #[test]
    #[should_panic(expected = "answer 4")]
    fn wait_is_no_answer_of_reserve_enter_or_release() {
        let _ = answer(4 << 32);
    }

    #[test]
    #[should_panic(expected = "refusal 12")]
    fn a_refusal_of_another_archive_is_not_taken_for_one_of_ours() {
        let _ = answer(12);
    }

    #[test]
    #[should_panic(expected = "answer 7")]
    fn an_answer_of_another_archive_is_not_taken_for_one_of_ours() {
        let _ = answer(7 << 32);
    }
}
