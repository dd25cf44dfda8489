//! cost MACHINE OPERATION N S COUNT: makes one call COUNT times, each from the same tables, under a counter of instructions.
//! The cost of a call is what twice COUNT takes more than COUNT, over COUNT, less the same for `reset`, which makes no call.
//! cost MACHINE OPERATION N S stores: makes the call once and prints how many stores to the two tables it made, and how many
//! of these changed a word. cost MACHINE OPERATION RECORDS COUNT: the same as the first for a list that is moved. `cost`
//! alone lists the operations on tables, those of the ordinary profile and then those on sheets, `cost lists` those on
//! lists. MACHINE is second, or proved with the feature of that name.

use second::driver::{make, Call, Case, Library, MACHINES};
use second::lists::{Lists, Way};
use second::machine::Profile::{self, Ordinary, Sheet};
use second::machine::{Answer, HEAD, MARK, START};
use second::posix::RECORD_WORDS;
use second::random::Random;
use second::stores::{Watcher, NOT_HERE};
use second::storing::watched;
use second::tables::Tables;
use std::process::exit;

const READS: u32 = 1;
const WRITES: u32 = 2;

/// No claim ends beyond it.
const TITLE: u32 = u32::MAX;

/// Tables on their way to the call that is measured: all seats but two hold, one behind the other.
struct Bench {
    tables: Tables,
    /// the seat that the call is made for, and one beside it
    last: u32,
    beside: u32,
}

/// No seat holds.
fn idle(profile: Profile, node_count: u32, seat_count: u32) -> Bench {
    let tables = Tables::fresh(profile, node_count, seat_count, TITLE);
    Bench { tables, last: seat_count - 1, beside: seat_count - 2 }
}

/// Each seat in turn holds at the place that the list gives it; the places lie apart, and two seats more are idle.
fn holders_at(profile: Profile, node_count: u32, places: Vec<u32>, kind: u32) -> Bench {
    let mut bench = idle(profile, node_count, places.len() as u32 + 2);
    for (seat, place) in (0..).zip(places) {
        bench.enter(seat, 10 * (place + 1), 10 * (place + 1) + 5, kind);
        bench.step_until_held(seat);
    }
    bench
}

fn holders(profile: Profile, node_count: u32, seat_count: u32, kind: u32) -> Bench {
    holders_at(profile, node_count, (0..seat_count - 2).collect(), kind)
}

fn writers(profile: Profile, node_count: u32, seat_count: u32) -> Bench {
    holders(profile, node_count, seat_count, WRITES)
}

fn readers(node_count: u32, seat_count: u32) -> Bench {
    holders(Ordinary, node_count, seat_count, READS)
}

// The board puts the holders in the order of their first frames, so it matters in which order they lie by seat.

fn falling(count: u32) -> Vec<u32> {
    (0..count).rev().collect()
}

/// In no order, the same one each time.
fn mixed(count: u32) -> Vec<u32> {
    let mut random = Random::new(1);
    let mut left: Vec<u32> = (0..count).collect();
    (0..count).map(|_| left.swap_remove(random.below(left.len() as u32) as usize)).collect()
}

/// The lowest, the highest, the second lowest and so on.
fn inward(count: u32) -> Vec<u32> {
    (0..count).map(|seat| if seat % 2 == 0 { seat / 2 } else { count - 1 - seat / 2 }).collect()
}

fn outward(count: u32) -> Vec<u32> {
    inward(count).into_iter().rev().collect()
}

impl Bench {
    fn reserve(&mut self, seat: u32, start: u32, end: u32, kind: u32) {
        self.tables.reserve(seat, start, end, kind).expect("a node is free");
    }

    /// The seat reserves, and enters at once.
    fn enter(&mut self, seat: u32, start: u32, end: u32, kind: u32) {
        self.reserve(seat, start, end, kind);
        self.tables.enter(seat).expect("the seat has reserved");
    }

    fn step(&mut self, seat: u32) -> Answer {
        self.tables.step(seat).expect("the seat is under way")
    }

    fn step_until_held(&mut self, seat: u32) {
        while self.step(seat) != Answer::Held {}
    }

    fn release(mut self, seat: u32) -> Bench {
        self.tables.release(seat).expect("the seat holds");
        self
    }

    /// The seat has entered before all holders, over all of them or behind them, and has made some steps.
    fn before(self, seat: u32, kind: u32, steps: u32) -> Bench {
        self.entered(seat, 0, 5, kind, steps)
    }

    fn over(self, seat: u32, kind: u32, steps: u32) -> Bench {
        self.entered(seat, 0, TITLE, kind, steps)
    }

    fn behind(self, seat: u32, kind: u32, steps: u32) -> Bench {
        let first = 10 * (self.last + 1);
        self.entered(seat, first, first + 5, kind, steps)
    }

    fn entered(mut self, seat: u32, start: u32, end: u32, kind: u32, steps: u32) -> Bench {
        self.enter(seat, start, end, kind);
        for _ in 0..steps {
            self.step(seat);
        }
        self
    }

    fn mark(&mut self, node: u32) {
        self.tables.nodes[self.tables.profile.place(node, MARK)] = 1;
    }

    /// Every node that was never used is listed behind the holders, marked or not.
    fn full(mut self, mark: u32) -> Bench {
        let mut list: Vec<u32> = self.tables.listed().collect();
        let profile = self.tables.profile;
        for node in list.len() as u32 + 1..=profile.node_count(&self.tables.nodes) as u32 {
            self.tables.nodes[profile.place(node, START)..=profile.place(node, MARK)]
                .copy_from_slice(&[10_000, 10_005, WRITES, 0, mark]);
            list.push(node);
        }
        self.tables.list(&list);
        self
    }

    // Of a full list only nodes behind its middle are marked. There are no holders there: of nodes there are more than twice as many.

    /// The node in the middle of the list is marked.
    fn one_marked(mut self) -> Bench {
        let list: Vec<u32> = self.tables.listed().collect();
        self.mark(list[list.len() / 2]);
        self
    }

    /// The second half of the list is marked and put between the nodes of the first: behind each node that stays, a holder's
    /// or nobody's, stands one that is to be taken out.
    fn every_second_marked(mut self) -> Bench {
        let list: Vec<u32> = self.tables.listed().collect();
        let (stay, go) = list.split_at(list.len() / 2);
        for &node in go {
            self.mark(node);
        }
        let mixed: Vec<u32> = stay.iter().zip(go).flat_map(|(&stays, &goes)| [stays, goes]).collect();
        self.tables.list(&mixed);
        self
    }

    fn call(self, call: Call) -> Case {
        Case { tables: self.tables, call }
    }

    fn steps(self) -> Case {
        let seat = self.last;
        self.call(steps(seat))
    }

    fn board(self, rows: u32) -> Case {
        self.call(Call::Board { rows: vec![0; 4 * rows as usize] })
    }

    fn reserves(self) -> Case {
        let seat = self.last;
        self.call(Call::Reserve { seat, start: 0, end: 5, kind: WRITES })
    }

    /// The seat has reserved a node, and makes this call.
    fn reserved(mut self, call: fn(u32) -> Call) -> Case {
        let seat = self.last;
        self.reserve(seat, 0, 5, WRITES);
        self.call(call(seat))
    }
}

fn steps(seat: u32) -> Call {
    Call::Step { seat, shared: [0; 2] }
}

/// A writer behind all readers, which has made all its steps but the one that links, and a reader over all that has linked.
fn race(nodes: u32, seats: u32) -> Bench {
    let bench = readers(nodes, seats);
    let (last, beside) = (bench.last, bench.beside);
    let mut bench = bench.behind(last, WRITES, beside).over(beside, READS, 1);
    bench.step(last);
    bench
}

/// A reader over all that stands before the one writer, which holds behind all readers.
fn reader_before_writer(nodes: u32, seats: u32) -> Bench {
    let bench = readers(nodes, seats);
    let (last, beside) = (bench.last, bench.beside);
    let mut bench = bench.behind(beside, WRITES, 0);
    bench.step_until_held(beside);
    bench.over(last, READS, 1 + beside)
}

/// All seats have entered, each shares frames with the next, where there are readers every fourth reads over all the others'
/// frames, and a thousand steps follow in no order.
fn long_run(profile: Profile, node_count: u32, seat_count: u32) -> Case {
    let mut bench = idle(profile, node_count, seat_count);
    for seat in 0..seat_count {
        let reads = profile == Ordinary && seat % 4 == 3;
        let (start, end, kind) = if reads { (10 * seat, 2000, READS) } else { (10 * seat, 10 * seat + 15, WRITES) };
        bench.enter(seat, start, end, kind);
    }
    let mut random = Random::new(1);
    let entries = (0..1000).map(|_| random.below(seat_count)).collect();
    bench.call(Call::Run { entries, budget: 1000 })
}

type Operation = (&'static str, &'static [Profile], fn(Profile, u32, u32) -> Case);

const BOTH: &[Profile] = &[Ordinary, Sheet];
const ORDINARY: &[Profile] = &[Ordinary];

/// On a sheet an insert that links holds.
const OPERATIONS: &[Operation] = &[
    ("clear", BOTH, |profile, nodes, seats| writers(profile, nodes, seats).call(Call::Clear { title: TITLE })),
    ("reserve", BOTH, |profile, nodes, seats| writers(profile, nodes, seats).reserves()),
    ("reserve, marked nodes are taken out", BOTH, |profile, nodes, seats| {
        writers(profile, nodes, seats).full(1).reserves()
    }),
    ("reserve, every node is listed, one is marked", BOTH, |profile, nodes, seats| {
        writers(profile, nodes, seats).full(0).one_marked().reserves()
    }),
    ("reserve, every node is listed, every second is marked", BOTH, |profile, nodes, seats| {
        writers(profile, nodes, seats).full(0).every_second_marked().reserves()
    }),
    ("reserve, every node is listed, all are marked", BOTH, |profile, nodes, seats| {
        idle(profile, nodes, seats).full(1).reserves()
    }),
    ("reserve, refused 8", BOTH, |profile, nodes, seats| writers(profile, nodes, seats).full(0).reserves()),
    ("enter", BOTH, |profile, nodes, seats| writers(profile, nodes, seats).reserved(|seat| Call::Enter { seat })),
    ("enter, refused 14", BOTH, |profile, nodes, seats| writers(profile, nodes, seats).call(Call::Enter { seat: 0 })),
    ("step 1, pass", BOTH, |profile, nodes, seats| writers(profile, nodes, seats).behind(seats - 1, WRITES, 0).steps()),
    ("step 1, insert", BOTH, |profile, nodes, seats| {
        writers(profile, nodes, seats).before(seats - 1, WRITES, 0).steps()
    }),
    ("step 1, unlink", BOTH, |profile, nodes, seats| {
        writers(profile, nodes, seats).release(0).before(seats - 1, WRITES, 0).steps()
    }),
    ("step 1, clash", BOTH, |profile, nodes, seats| writers(profile, nodes, seats).over(seats - 1, WRITES, 0).steps()),
    ("step 2, waits on", BOTH, |profile, nodes, seats| {
        writers(profile, nodes, seats).over(seats - 1, WRITES, 1).steps()
    }),
    ("step 3, reader passes", ORDINARY, |_, nodes, seats| readers(nodes, seats).over(seats - 1, READS, 1).steps()),
    ("step 3, reader holds", ORDINARY, |_, nodes, seats| readers(nodes, seats).before(seats - 1, READS, 1).steps()),
    ("step 3, reader meets a writer", ORDINARY, |_, nodes, seats| reader_before_writer(nodes, seats).steps()),
    ("step 3, writer passes", ORDINARY, |profile, nodes, seats| {
        writers(profile, nodes, seats).behind(seats - 1, WRITES, seats - 1).steps()
    }),
    ("step 3, writer holds", ORDINARY, |profile, nodes, seats| {
        writers(profile, nodes, seats).before(seats - 1, WRITES, 1).steps()
    }),
    ("step 3, writer withdraws", ORDINARY, |_, nodes, seats| race(nodes, seats).steps()),
    ("step 4, waits on", ORDINARY, |_, nodes, seats| {
        let mut bench = reader_before_writer(nodes, seats);
        bench.step(seats - 1);
        bench.steps()
    }),
    ("step 5", BOTH, |profile, nodes, seats| writers(profile, nodes, seats).call(steps(0))),
    ("step 6, fetch to 7", ORDINARY, |_, nodes, seats| {
        let mut bench = race(nodes, seats);
        bench.step(seats - 1);
        bench.steps()
    }),
    ("step 7, enter", BOTH, |profile, nodes, seats| writers(profile, nodes, seats).reserved(steps)),
    ("release", BOTH, |profile, nodes, seats| writers(profile, nodes, seats).call(Call::Release { seat: 0 })),
    ("run of 1,000 entries", BOTH, long_run),
    ("board", BOTH, |profile, nodes, seats| writers(profile, nodes, seats).board(seats)),
    ("board, no row to spare", BOTH, |profile, nodes, seats| writers(profile, nodes, seats).board(seats - 2)),
    ("board, first frames falling", ORDINARY, |profile, nodes, seats| {
        holders_at(profile, nodes, falling(seats - 2), WRITES).board(seats)
    }),
    ("board, first frames mixed", ORDINARY, |profile, nodes, seats| {
        holders_at(profile, nodes, mixed(seats - 2), WRITES).board(seats)
    }),
    ("board, first frames from both ends inward", ORDINARY, |profile, nodes, seats| {
        holders_at(profile, nodes, inward(seats - 2), WRITES).board(seats)
    }),
    ("board, first frames from the middle outward", ORDINARY, |profile, nodes, seats| {
        holders_at(profile, nodes, outward(seats - 2), WRITES).board(seats)
    }),
    ("board, readers of the same frames", ORDINARY, |profile, nodes, seats| {
        holders_at(profile, nodes, vec![0; seats as usize - 2], READS).board(seats)
    }),
    ("free count", BOTH, |profile, nodes, seats| writers(profile, nodes, seats).call(Call::FreeCount)),
];

/// What stands before the name of an operation where it is one on a sheet.
fn prefix(profile: Profile) -> &'static str {
    match profile {
        Ordinary => "",
        Sheet => "sheet: ",
    }
}

/// The names of the operations on tables, the ordinary ones first.
fn operations() -> impl Iterator<Item = String> {
    let of = |profile: Profile| OPERATIONS.iter().filter(move |(_, profiles, _)| profiles.contains(&profile));
    BOTH.iter().flat_map(move |&profile| of(profile).map(move |(name, ..)| format!("{}{name}", prefix(profile))))
}

/// The tables and the call of an operation by its name, if there is one of that name.
fn prepared(operation: &str, nodes: u32, seats: u32) -> Option<Case> {
    let (profile, name) = match operation.strip_prefix(prefix(Sheet)) {
        Some(name) => (Sheet, name),
        None => (Ordinary, operation),
    };
    let (_, _, prepare) = OPERATIONS.iter().find(|(of, profiles, _)| *of == name && profiles.contains(&profile))?;
    Some(prepare(profile, nodes, seats))
}

// Lists of so many records

/// Each lock covers five frames, behind those before it, and the last reaches to the title's end.
fn locks(records: usize, lock: fn(i64) -> [i64; 2]) -> Lists {
    let starts = (0..records as i64).map(|place| 10 * place);
    let mut locks: Vec<i64> = starts.flat_map(|first| [&[WRITES.into()], lock(first).as_slice()].concat()).collect();
    if let Some(length) = locks.last_mut() {
        *length = 0;
    }
    Lists { way: Way::Import, title: TITLE, locks, claims: vec![0; RECORD_WORDS * records] }
}

fn positive(records: usize) -> Lists {
    locks(records, |first| [first, 5])
}

fn negative(records: usize) -> Lists {
    locks(records, |first| [first + 5, -5])
}

/// The claims that those locks are.
fn claims(records: usize) -> Lists {
    let starts = (0..records as u32).map(|place| 10 * place);
    let mut claims: Vec<u32> = starts.flat_map(|first| [first, first + 5, WRITES]).collect();
    if let [.., end, _] = claims.as_mut_slice() {
        *end = TITLE;
    }
    Lists { way: Way::Export, title: TITLE, locks: vec![0; RECORD_WORDS * records], claims }
}

type ListOperation = (&'static str, fn(usize) -> Lists);

const LIST_OPERATIONS: &[ListOperation] = &[
    ("import, positive lengths", positive),
    ("import, negative lengths", negative),
    ("import, the last refused 12", |records| {
        let mut lists = positive(records);
        lists.locks[RECORD_WORDS * (records - 1) + 1] = -1;
        lists
    }),
    ("import, the first refused 12", |records| {
        let mut lists = positive(records);
        lists.locks[1] = -1;
        lists
    }),
    ("import, refused 9", |records| Lists { claims: vec![], ..positive(records) }),
    ("export", claims),
    ("export, the last refused 4", |records| {
        let mut lists = claims(records);
        lists.claims[RECORD_WORDS * records - 1] = 0;
        lists
    }),
    ("export, the first refused 4", |records| {
        let mut lists = claims(records);
        lists.claims[2] = 0;
        lists
    }),
    ("export, refused 9", |records| Lists { locks: vec![], ..claims(records) }),
];

/// Moves a list so often. Nothing of what it is moved into is looked at, so it stays as the turn before left it.
fn move_lists(library: &Library, operation: &str, records: usize, count: u32) {
    let prepare = LIST_OPERATIONS.iter().find(|(name, _)| *name == operation);
    let mut lists = prepare.map_or(positive as fn(usize) -> Lists, |(_, prepare)| *prepare)(records);
    let mut moved = (0, 0);
    for _ in 0..count {
        if prepare.is_some() {
            moved = match lists.way {
                Way::Import => (library.import)(lists.title, &lists.locks, &mut lists.claims),
                Way::Export => (library.export)(lists.title, &lists.claims, &mut lists.locks),
            };
        }
    }
    println!("{operation}: refusal {}, place {}", moved.0, moved.1);
}

fn number(argument: &str) -> u32 {
    argument.parse().expect("N, S, RECORDS and COUNT are numbers")
}

/// Makes the call once under the watcher, and counts its stores to the tables and those that changed a word.
fn count_stores(library: &Library, case: &Case) {
    let mut watcher = Watcher::new().unwrap_or_else(|| {
        eprintln!("not run: {NOT_HERE}");
        exit(2);
    });
    let stores = watched(&mut watcher, library, case).stores;
    println!("{} {}", stores.len(), stores.iter().filter(|store| store.changes()).count());
}

fn main() {
    let arguments: Vec<String> = std::env::args().skip(1).collect();
    if ![4, 5].contains(&arguments.len()) {
        println!("reset");
        if arguments == ["lists"] {
            LIST_OPERATIONS.iter().for_each(|(name, _)| println!("{name}"));
        } else {
            operations().for_each(|name| println!("{name}"));
        }
        exit(if arguments.is_empty() || arguments == ["lists"] { 0 } else { 2 });
    }
    let library = MACHINES.iter().find(|(name, _)| *name == arguments[0]).expect("the name of a machine").1;
    if let [_, operation, records, count] = arguments.as_slice() {
        return move_lists(&library, operation, number(records) as usize, number(count));
    }
    let (node_count, seat_count) = (number(&arguments[2]), number(&arguments[3]));
    let operation = prepared(&arguments[1], node_count, seat_count);
    let calls_it = operation.is_some();
    let case = operation.unwrap_or_else(|| OPERATIONS[0].2(Ordinary, node_count, seat_count));
    if arguments[4] == "stores" {
        assert!(calls_it, "the name of an operation");
        return count_stores(&library, &case);
    }
    let Tables { profile, mut nodes, mut seats } = case.tables.clone();
    let calls = library.calls(profile);
    let mut rows = if let Call::Board { rows } = &case.call { rows.clone() } else { vec![] };
    let mut answer = 0;
    let mut covered = 0;
    let mut shared = [0; 2];
    for _ in 0..number(&arguments[4]) {
        nodes.copy_from_slice(&case.tables.nodes);
        seats.copy_from_slice(&case.tables.seats);
        if calls_it {
            answer = make(calls, &case.call, &mut nodes, &mut seats, &mut rows, &mut covered, &mut shared);
        }
    }
    let (kind, number) = (answer >> 32, answer as u32);
    let [first, end] = shared;
    println!("{}: answer {kind} {number}, head {}, covered {covered}, shared {first} {end}", arguments[1], nodes[HEAD]);
}
