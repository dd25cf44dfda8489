//! Lists by seed to be moved, locks into claims and claims into locks: good ones, bad ones, and edges; and what they meet, by
//! which the tally tells whether a mix says anything about a refusal.

use crate::posix::{export, import, Claim, Lock, NotMoved, RECORD_WORDS};
use crate::random::Random;

#[derive(Clone, Copy, Debug, PartialEq, Eq)]
pub enum Way {
    Import,
    Export,
}

/// A list that is moved and the one that it is moved into, as they are lent.
#[derive(Clone, Debug)]
pub struct Lists {
    pub way: Way,
    pub title: u32,
    pub locks: Vec<i64>,
    pub claims: Vec<u32>,
}

impl Lists {
    /// How many words are moved, and into how many.
    fn lengths(&self) -> (usize, usize) {
        match self.way {
            Way::Import => (self.locks.len(), self.claims.len()),
            Way::Export => (self.claims.len(), self.locks.len()),
        }
    }

    pub fn records(&self) -> usize {
        self.lengths().0 / RECORD_WORDS
    }
}

// Numbers

const BEYOND_32_BITS: i64 = 1 << 32;

/// One of the numbers where sums go wrong, or the one behind it, or the one before it.
fn edge(random: &mut Random, title: u32) -> i64 {
    let title = i64::from(title);
    let edges = [0, title, 1 << 31, BEYOND_32_BITS, BEYOND_32_BITS - title, i64::MIN, i64::MAX, i64::MAX - title];
    let number = random.pick(&edges);
    let signed = if random.percent(30) { number.wrapping_neg() } else { number };
    signed.wrapping_add(random.pick(&[0, 0, -1, 1]))
}

/// A start and a length of which the sum is an edge, if it does not wrap.
fn edge_run(random: &mut Random, title: u32) -> [i64; 2] {
    let (start, sum) = (edge(random, title), edge(random, title));
    [start, sum.wrapping_sub(start)]
}

fn some_title(random: &mut Random) -> u32 {
    let any = random.word().max(1);
    random.pick(&[0, 1, 2, 20, 20, 300, any, any, 1 << 31, u32::MAX - 1, u32::MAX, u32::MAX])
}

fn known_kind(random: &mut Random) -> u32 {
    random.between(1, 2)
}

/// Some look like a known kind by their lowest bits.
fn unknown_kind(random: &mut Random) -> u32 {
    random.pick(&[0, 3, 4, 17, 258, 1 << 31 | 1, u32::MAX - 1, u32::MAX])
}

fn unknown_type(random: &mut Random) -> i64 {
    let like_known = i64::from(known_kind(random)) + random.pick(&[BEYOND_32_BITS, -BEYOND_32_BITS, i64::MIN, 1 << 62]);
    random.pick(&[0, 3, -1, -2, i64::MIN, i64::MAX, like_known, like_known])
}

// Records

/// A claim that fits the title.
fn good_claim(random: &mut Random, title: u32) -> Claim {
    let start = random.below(title);
    let [start, end] = match random.below(5) {
        0 => [start, title],
        1 => [0, random.between(1, title)],
        2 => [start, start + 1],
        // up to a frame before the end, where there is one
        3 => [start.min(title.saturating_sub(2)), (title - 1).max(1)],
        _ => [start, random.between(start + 1, title)],
    };
    [start, end, known_kind(random)]
}

/// A claim that does not: empty, beyond the title, of no known kind, or several of these.
fn bad_claim(random: &mut Random, title: u32) -> Claim {
    let [start, end, kind] = good_claim(random, title);
    let behind = random.between(title, u32::MAX);
    let beyond = random.pick(&[title.saturating_add(1), behind, u32::MAX]);
    let unknown = unknown_kind(random);
    let kind = random.pick(&[kind, kind, unknown]);
    match random.below(6) {
        0 => [start, start, kind],
        1 => [end, start, kind],
        2 => [random.between(beyond, u32::MAX), beyond, kind],
        3 => [random.pick(&[start, title]), beyond, kind],
        4 => [random.edge(), random.edge(), kind],
        _ => [start, end, unknown],
    }
}

/// A run from first up to but not including end as a lock: its length is positive or negative.
fn lock_over(random: &mut Random, kind: i64, first: i64, end: i64) -> Lock {
    if random.percent(50) {
        [kind, first, end - first]
    } else {
        [kind, end, first - end]
    }
}

/// A lock of a claim that fits the title, in each of the ways that there are to write it.
fn good_lock(random: &mut Random, title: u32) -> Lock {
    let [start, end, kind] = good_claim(random, title).map(i64::from);
    if end == i64::from(title) && random.percent(40) {
        [kind, start, 0]
    } else {
        lock_over(random, kind, start, end)
    }
}

/// A lock that does not: of no run, of no known type, beyond the title, or several of these.
fn bad_lock(random: &mut Random, title: u32) -> Lock {
    let [start, end, kind] = good_claim(random, title).map(i64::from);
    let unknown = unknown_type(random);
    let kind = random.pick(&[kind, kind, unknown]);
    let below_0 = -i64::from(random.pick(&[1, 1, 2, 300, 1 << 31, u32::MAX]));
    let frames = i64::from(title);
    let start_or_frames = random.pick(&[start, frames]);
    let beyond = i64::from(random.pick(&[title.saturating_add(1), u32::MAX]));
    let past = BEYOND_32_BITS + i64::from(random.pick(&[0, 0, 1, 300, u32::MAX]));
    match random.below(10) {
        0 => lock_over(random, kind, below_0, end),
        1 => lock_over(random, kind, below_0, beyond),
        2 => [kind, random.pick(&[frames, frames, frames + 1, BEYOND_32_BITS, i64::MAX, below_0, i64::MIN]), 0],
        3 => lock_over(random, kind, start, past),
        4 => lock_over(random, kind, past - 1, past),
        5 => lock_over(random, kind, start_or_frames, beyond),
        // what a good one becomes if 32 bits are passed over
        6 => [kind, start + random.pick(&[0, BEYOND_32_BITS]), end - start + random.pick(&[0, BEYOND_32_BITS])],
        7 => [kind, edge(random, title), edge(random, title)],
        8 => {
            let [start, length] = edge_run(random, title);
            [kind, start, length]
        }
        _ => lock_over(random, unknown, start, end),
    }
}

// Lists

/// Records of which most lists have no bad one, some one and some more. Those that are made to be bad may come out good.
fn some_records<Record>(
    random: &mut Random,
    title: u32,
    good: fn(&mut Random, u32) -> Record,
    bad: fn(&mut Random, u32) -> Record,
) -> Vec<Record> {
    let title = title.max(1);
    let count = if random.percent(1) { random.between(22, 1000) } else { random.pick(&[0, 1, 1, 2, 3, 5, 8, 21]) };
    let mut records: Vec<Record> = (0..count).map(|_| good(random, title)).collect();
    let bad_ones = match random.below(10) {
        0..=4 => 0,
        5..=7 => 1,
        8 => 2,
        _ => count,
    };
    for _ in 0..bad_ones.min(count) {
        let at = random.below(count) as usize;
        records[at] = bad(random, title);
    }
    records
}

/// So many words to move into: enough, more, or too few.
fn some_room(random: &mut Random, needed: usize) -> usize {
    match random.below(10) {
        0 => needed.saturating_sub(1),
        1 => needed.saturating_sub(RECORD_WORDS),
        2 => random.below(needed as u32) as usize,
        3..=5 => needed,
        6 => needed + 1,
        7 => needed + 2,
        _ => needed + RECORD_WORDS + random.below(7) as usize,
    }
}

/// The records word by word, with a rest of some words behind them that is no record.
fn with_rest<Word: Copy>(random: &mut Random, records: &[[Word; RECORD_WORDS]], rest: [Word; 2]) -> Vec<Word> {
    let length = random.pick(&[0, 0, 1, 2]);
    [records.concat().as_slice(), &rest[..length]].concat()
}

fn any_words(random: &mut Random, length: usize) -> Vec<u32> {
    (0..length).map(|_| random.word()).collect()
}

fn any_locks(random: &mut Random, length: usize) -> Vec<i64> {
    (0..length).map(|_| random.bits() as i64).collect()
}

pub fn some_import(random: &mut Random) -> Lists {
    let title = some_title(random);
    let records = some_records(random, title, good_lock, bad_lock);
    let rest = [(); 2].map(|()| edge(random, title));
    let room = some_room(random, RECORD_WORDS * records.len());
    Lists { way: Way::Import, title, locks: with_rest(random, &records, rest), claims: any_words(random, room) }
}

pub fn some_export(random: &mut Random) -> Lists {
    let title = some_title(random);
    let records = some_records(random, title, good_claim, bad_claim);
    let rest = [(); 2].map(|()| random.edge());
    let room = some_room(random, RECORD_WORDS * records.len());
    Lists { way: Way::Export, title, claims: with_rest(random, &records, rest), locks: any_locks(random, room) }
}

/// The list that was moved into, moved back: its records, as many as there were, into so many words and one to spare.
pub fn back(random: &mut Random, moved: &Lists, locks: &[i64], claims: &[u32]) -> Lists {
    let words = RECORD_WORDS * moved.records();
    let title = moved.title;
    match moved.way {
        Way::Import => {
            Lists { way: Way::Export, title, claims: claims[..words].to_vec(), locks: any_locks(random, words + 1) }
        }
        Way::Export => {
            Lists { way: Way::Import, title, locks: locks[..words].to_vec(), claims: any_words(random, words + 1) }
        }
    }
}

// What they meet

/// The refusal of a list of one record, or 0.
fn number(taken: Result<(), NotMoved>) -> u32 {
    taken.map_or_else(|(refusal, _)| refusal, |()| 0)
}

/// A lock that is looked at, its run, and its own refusal, or 0.
struct LookedLock {
    title: i128,
    kind: i64,
    start: i128,
    length: i128,
    first: i128,
    end: i128,
    refusal: u32,
}

impl LookedLock {
    fn new(title: u32, [kind, start, length]: Lock) -> LookedLock {
        let taken = import(title, &[kind, start, length], &mut [0; RECORD_WORDS]);
        let [start, length, title] = [start, length, i64::from(title)].map(i128::from);
        let first = start + length.min(0);
        let end = if length == 0 { title } else { start + length.max(0) };
        LookedLock { title, kind, start, length, first, end, refusal: number(taken) }
    }

    fn of_known_type(&self) -> bool {
        [1, 2].contains(&self.kind)
    }

    /// 12, and its run starts where it may.
    fn not_below_0(&self) -> bool {
        self.refusal == 12 && self.first >= 0
    }

    fn ends_past(&self) -> bool {
        self.not_below_0() && self.end > LAST_END
    }
}

const LAST_END: i128 = 4_294_967_295;

type Meets<Looked> = (&'static str, fn(&Looked) -> bool);

/// What a lock can be, up to the first bad one of its list: what import can get wrong.
const LOCKS: [Meets<LookedLock>; 37] = [
    ("lock: taken, length positive", |lock| lock.refusal == 0 && lock.length > 0),
    ("lock: taken, length negative", |lock| lock.refusal == 0 && lock.length < 0),
    ("lock: taken, length 0", |lock| lock.refusal == 0 && lock.length == 0),
    ("lock: taken, length positive, up to the title", |lock| {
        lock.refusal == 0 && lock.length > 0 && lock.end == lock.title
    }),
    ("lock: taken, length negative, from the title down", |lock| {
        lock.refusal == 0 && lock.length < 0 && lock.end == lock.title
    }),
    ("lock: taken, length negative, down to 0", |lock| lock.refusal == 0 && lock.length < 0 && lock.first == 0),
    ("lock: taken, up to 4294967295", |lock| lock.refusal == 0 && lock.end == LAST_END),
    ("lock: taken, length 0, the title shorter than 4294967295", |lock| {
        lock.refusal == 0 && lock.length == 0 && lock.title < LAST_END
    }),
    ("lock: taken, of one frame", |lock| lock.refusal == 0 && lock.end - lock.first == 1),
    ("lock: 12, starts below 0, length positive", |lock| lock.refusal == 12 && lock.start < 0 && lock.length > 0),
    ("lock: 12, starts below 0, length negative", |lock| lock.refusal == 12 && lock.start < 0 && lock.length < 0),
    ("lock: 12, starts below 0, length 0", |lock| lock.refusal == 12 && lock.start < 0 && lock.length == 0),
    ("lock: 12, starts below 0 by its length alone", |lock| lock.refusal == 12 && lock.start >= 0 && lock.first < 0),
    ("lock: 12, starts below 0 by a frame", |lock| lock.refusal == 12 && lock.first == -1),
    ("lock: 12, starts below 0, ends beyond the title", |lock| {
        lock.refusal == 12 && lock.first < 0 && (lock.title + 1..=LAST_END).contains(&lock.end)
    }),
    ("lock: 12, empty, length 0 at the title", |lock| {
        lock.not_below_0() && lock.length == 0 && lock.start == lock.title
    }),
    ("lock: 12, empty, length 0 beyond the title", |lock| {
        lock.not_below_0() && lock.length == 0 && lock.start > lock.title
    }),
    ("lock: 12, ends past 4294967295 by a frame, length positive", |lock| {
        lock.ends_past() && lock.length > 0 && lock.end == LAST_END + 1
    }),
    ("lock: 12, ends past 4294967295 by a frame, length negative", |lock| {
        lock.ends_past() && lock.length < 0 && lock.end == LAST_END + 1
    }),
    ("lock: 12, ends past 4294967295 by more, length positive", |lock| {
        lock.ends_past() && lock.length > 0 && lock.end > LAST_END + 1
    }),
    ("lock: 12, ends past 4294967295 by more, length negative", |lock| {
        lock.ends_past() && lock.length < 0 && lock.end > LAST_END + 1
    }),
    ("lock: 12, a sum that 64 bits do not hold, above", |lock| lock.start + lock.length > i128::from(i64::MAX)),
    ("lock: 12, a sum that 64 bits do not hold, below", |lock| lock.start + lock.length < i128::from(i64::MIN)),
    ("lock: 12, the lowest length that there is", |lock| lock.length == i128::from(i64::MIN)),
    ("lock: 12, taken if of each number 32 bits were read", |lock| {
        let run = lock.start as u32..(lock.start as u32).wrapping_add(lock.length as u32);
        lock.refusal == 12 && lock.of_known_type() && !run.is_empty() && i128::from(run.end) <= lock.title
    }),
    ("lock: 12, taken if the length were read without its sign", |lock| {
        lock.refusal == 12 && lock.length < 0 && lock.start >= 0 && lock.start - lock.length <= lock.title
    }),
    ("lock: 12, and of no known type", |lock| lock.refusal == 12 && !lock.of_known_type()),
    ("lock: 13", |lock| lock.refusal == 13 && lock.end <= lock.title),
    ("lock: 13, below 0", |lock| lock.refusal == 13 && lock.kind < 0),
    ("lock: 13, a known type by its lowest 32 bits", |lock| lock.refusal == 13 && [1, 2].contains(&(lock.kind as u32))),
    ("lock: 13, and beyond the title", |lock| lock.refusal == 13 && lock.end > lock.title),
    ("lock: 11, by a frame", |lock| lock.refusal == 11 && lock.end == lock.title + 1),
    ("lock: 11, by more", |lock| lock.refusal == 11 && lock.end > lock.title + 1),
    ("lock: 11, up to 4294967295", |lock| lock.refusal == 11 && lock.end == LAST_END),
    ("lock: 11, no frame within the title", |lock| lock.refusal == 11 && lock.first >= lock.title),
    ("lock: 11, length positive", |lock| lock.refusal == 11 && lock.length > 0),
    ("lock: 11, length negative", |lock| lock.refusal == 11 && lock.length < 0),
];

/// A claim that is looked at, and its own refusal, or 0.
struct LookedClaim {
    title: u32,
    start: u32,
    end: u32,
    kind: u32,
    refusal: u32,
}

impl LookedClaim {
    fn new(title: u32, [start, end, kind]: Claim) -> LookedClaim {
        let taken = export(title, &[start, end, kind], &mut [0; RECORD_WORDS]);
        LookedClaim { title, start, end, kind, refusal: number(taken) }
    }

    fn of_known_kind(&self) -> bool {
        [1, 2].contains(&self.kind)
    }
}

/// What a claim can be, up to the first bad one of its list: what export can get wrong.
const CLAIMS: [Meets<LookedClaim>; 15] = [
    ("claim: taken, up to the title", |claim| claim.refusal == 0 && claim.end == claim.title),
    ("claim: taken, a frame short of the title", |claim| claim.refusal == 0 && claim.end == claim.title - 1),
    ("claim: taken, up to 4294967295", |claim| claim.refusal == 0 && claim.end == u32::MAX),
    ("claim: taken, more than 2147483647 frames, not up to the title", |claim| {
        claim.refusal == 0 && claim.end != claim.title && claim.end - claim.start > u32::MAX / 2
    }),
    ("claim: 3, ends where it starts", |claim| claim.refusal == 3 && claim.end == claim.start),
    ("claim: 3, ends before it starts", |claim| claim.refusal == 3 && claim.end < claim.start),
    ("claim: 3, and beyond the title", |claim| claim.refusal == 3 && claim.end > claim.title),
    ("claim: 3, and of no known kind", |claim| claim.refusal == 3 && !claim.of_known_kind()),
    ("claim: 3, beyond the title and of no known kind", |claim| {
        claim.refusal == 3 && claim.end > claim.title && !claim.of_known_kind()
    }),
    ("claim: 11, by a frame", |claim| claim.refusal == 11 && claim.end - claim.title == 1),
    ("claim: 11, by more", |claim| claim.refusal == 11 && claim.end - claim.title > 1),
    ("claim: 11, no frame within the title", |claim| claim.refusal == 11 && claim.start >= claim.title),
    ("claim: 11, and of no known kind", |claim| claim.refusal == 11 && !claim.of_known_kind()),
    ("claim: 4", |claim| claim.refusal == 4 && claim.end < claim.title),
    ("claim: 4, up to the title", |claim| claim.refusal == 4 && claim.end == claim.title),
];

/// A list that is looked at: each record's own refusal, or 0, in a title that is not empty.
struct LookedList {
    titled: bool,
    refusals: Vec<u32>,
    /// words behind the last record
    rest: usize,
    room: usize,
}

impl LookedList {
    fn records(&self) -> usize {
        self.refusals.len()
    }

    fn missing(&self) -> usize {
        (RECORD_WORDS * self.records()).saturating_sub(self.room)
    }

    fn spare(&self) -> usize {
        self.room.saturating_sub(RECORD_WORDS * self.records())
    }

    fn bad(&self) -> Option<usize> {
        self.refusals.iter().position(|&refusal| refusal != 0).filter(|_| self.titled)
    }

    fn accepted(&self) -> bool {
        self.titled && self.bad().is_none() && self.missing() == 0
    }

    fn too_short(&self) -> bool {
        self.titled && self.bad().is_none() && self.missing() > 0
    }

    /// A bad record for which this holds of its place and of how many records there is room for.
    fn bad_at(&self, holds: fn(usize, usize) -> bool) -> bool {
        self.bad().map_or(false, |place| holds(place, self.room / RECORD_WORDS))
    }

    /// A later bad record for whose number this holds, beside the first one's.
    fn later(&self, holds: fn(u32, u32) -> bool) -> bool {
        let later = |place: usize| {
            self.refusals[place + 1..].iter().any(|&other| other != 0 && holds(self.refusals[place], other))
        };
        self.bad().map_or(false, later)
    }
}

/// How a list can be lent, and what it can be refused for: what both calls can get wrong, whatever a record is.
const LENT: [Meets<LookedList>; 22] = [
    ("refused 3", |list| !list.titled && list.refusals.iter().all(|&refusal| refusal == 0) && list.missing() == 0),
    ("refused 3, and no record", |list| !list.titled && list.records() == 0),
    ("refused 3, and a bad record", |list| !list.titled && list.refusals.iter().any(|&refusal| refusal != 0)),
    ("refused 3, and too short", |list| !list.titled && list.missing() > 0),
    ("accepted, no record", |list| list.accepted() && list.records() == 0),
    ("accepted, no record and no room", |list| list.accepted() && list.records() == 0 && list.room == 0),
    ("accepted, several records", |list| list.accepted() && list.records() > 1),
    ("accepted, hundreds of records", |list| list.accepted() && list.records() > 100),
    ("accepted, no word to spare", |list| list.accepted() && list.records() > 0 && list.spare() == 0),
    ("accepted, a word or two to spare", |list| list.accepted() && [1, 2].contains(&list.spare())),
    ("accepted, room for a record more", |list| list.accepted() && list.spare() >= RECORD_WORDS),
    ("accepted, a rest of one word", |list| list.accepted() && list.rest == 1),
    ("accepted, a rest of two words, and room for it", |list| list.accepted() && list.rest == 2 && list.spare() > 2),
    ("refused 9, by a word", |list| list.too_short() && list.missing() == 1),
    ("refused 9, by more", |list| list.too_short() && list.missing() > 1 && list.room > 0),
    ("refused 9, no room at all", |list| list.too_short() && list.room == 0),
    ("a bad record, the first", |list| list.bad() == Some(0)),
    ("a bad record behind good ones", |list| list.bad() > Some(0) && list.missing() == 0),
    ("a bad record behind the room", |list| list.bad_at(|place, room| place >= room)),
    ("a bad record within the room, which is too short", |list| {
        list.missing() > 0 && list.bad_at(|place, room| place < room)
    }),
    ("bad records, a later one of a lower number", |list| list.later(|first, other| other < first)),
    ("bad records, a later one of a higher number", |list| list.later(|first, other| other > first)),
];

fn name_of(way: Way, name: &str) -> String {
    format!("{}: {name}", if way == Way::Import { "import" } else { "export" })
}

fn met<Looked>(names: &[Meets<Looked>], looked: &Looked) -> Vec<&'static str> {
    names.iter().filter(|(_, meets)| meets(looked)).map(|(name, _)| *name).collect()
}

/// The records up to the first that is refused, that one included.
fn decisive<Looked>(looked: &[Looked], refusal: fn(&Looked) -> u32) -> &[Looked] {
    let bad = looked.iter().position(|record| refusal(record) != 0);
    &looked[..bad.map_or(looked.len(), |place| place + 1)]
}

/// The names of what a list meets. A record's are told only up to the first bad one, and only in a title that has frames:
/// no other is ever looked at.
pub fn names_met(lists: &Lists) -> Vec<String> {
    let title = lists.title.max(1);
    let (words, room) = lists.lengths();
    let mut names = vec![];
    let refusals: Vec<u32> = match lists.way {
        Way::Import => {
            let record = |words: &[i64]| LookedLock::new(title, [words[0], words[1], words[2]]);
            let looked: Vec<LookedLock> = lists.locks.chunks_exact(RECORD_WORDS).map(record).collect();
            names.extend(decisive(&looked, |lock| lock.refusal).iter().flat_map(|lock| met(&LOCKS, lock)));
            looked.iter().map(|lock| lock.refusal).collect()
        }
        Way::Export => {
            let record = |words: &[u32]| LookedClaim::new(title, [words[0], words[1], words[2]]);
            let looked: Vec<LookedClaim> = lists.claims.chunks_exact(RECORD_WORDS).map(record).collect();
            names.extend(decisive(&looked, |claim| claim.refusal).iter().flat_map(|claim| met(&CLAIMS, claim)));
            looked.iter().map(|claim| claim.refusal).collect()
        }
    };
    if lists.title == 0 {
        names.clear();
    }
    let list = LookedList { titled: lists.title != 0, refusals, rest: words % RECORD_WORDS, room };
    let lent = met(&LENT, &list).into_iter().map(|name| name_of(lists.way, name));
    names.into_iter().map(str::to_string).chain(lent).collect()
}

/// Every name that a list can meet.
pub fn names() -> Vec<String> {
    let locks = LOCKS.iter().map(|(name, _)| name.to_string());
    let claims = CLAIMS.iter().map(|(name, _)| name.to_string());
    let lent =
        [Way::Import, Way::Export].into_iter().flat_map(|way| LENT.iter().map(move |(name, _)| name_of(way, name)));
    locks.chain(claims).chain(lent).collect()
}
