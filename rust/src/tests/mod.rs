//! Unit tests of the second machine, and of the generators and tables that machines are compared on.

use crate::driver::{outcome, shared_found, Call, Case};
use crate::library_of;
use crate::tables::Tables;

mod calls;
mod counts;
mod covered;
mod histories;
mod layout;
mod posix;
mod reserved;
mod scripts;
mod shared;
mod sheets;
mod stores;
mod storing;
mod storing_lists;
mod tables;
mod title;

/// 02: "the histories take 4,294,967,295".
const LONGEST_TITLE: u32 = 4_294_967_295;

/// The script of bodies separated by `;` on N nodes and S seats, of a title that no claim ends beyond.
fn script_of(nodes: u32, seats: u32, bodies: &str) -> String {
    script_on(nodes, seats, LONGEST_TITLE, bodies)
}

/// The same for a title of so many frames.
fn script_on(nodes: u32, seats: u32, title: u32, bodies: &str) -> String {
    let bodies: Vec<&str> = bodies.split("; ").collect();
    format!("{nodes} {seats} {} {title}\n{}\n", bodies.len(), bodies.join("\n"))
}

/// Every call but clear finds these tables damaged, and leaves all that it is lent as it was.
fn refused_by_every_call(name: &str, tables: &Tables) {
    let library = library_of!(crate::library);
    let damaged = 1;
    let calls = [
        (Call::Reserve { seat: 0, start: 0, end: 1, kind: 2 }, damaged),
        (Call::Enter { seat: 0 }, damaged),
        (Call::Step { seat: 0, shared: [7; 2] }, damaged),
        (Call::Release { seat: 0 }, damaged),
        (Call::Run { entries: vec![0], budget: 9 }, damaged << 32),
        (Call::Board { rows: vec![7; 256] }, damaged),
        (Call::FreeCount, damaged),
    ];
    for (call, answer) in calls {
        let text = format!("{name}: {call:?}");
        let shared = shared_found(&call);
        let after = outcome(&library, &Case { tables: tables.clone(), call });
        assert_eq!(after.answer, answer, "{text}");
        assert_eq!((after.nodes.words(), after.seats.words()), (&tables.nodes[..], &tables.seats[..]), "{text}");
        assert!(after.rows.words().iter().all(|&word| word == 7), "{text}");
        assert_eq!(after.shared.words(), shared, "{text}");
    }
}

/// What reserves must meet at the title's end, in the generated scripts and on the tables of a seed.
const RESERVES: [&str; 8] = [
    "reserve: beyond the title, and empty",
    "reserve: beyond the title, of no known kind",
    "reserve: beyond the title, by a seat that has a claim",
    "reserve: beyond the title",
    "reserve: beyond the title by a frame",
    "reserve: up to the title, of no known kind",
    "reserve: up to the title, by a seat that has a claim",
    "reserve: up to the title",
];

/// What must be met of reserved seats, in the generated scripts and on the tables of a seed: each phase in which enter is
/// refused, what the head is where it is not, and that no fetch takes their nodes.
const ENTRIES: [&str; 12] = [
    "enter: refused in phase 0",
    "enter: refused in phase 1",
    "enter: refused in phase 2",
    "enter: refused in phase 3",
    "enter: refused in phase 4",
    "enter: refused in phase 5",
    "enter: refused in phase 6",
    "enter: refused 2",
    "enter: no node is listed",
    "enter: the first listed node is unmarked",
    "enter: the first listed node is marked",
    "reserve: the node of a reserved seat is left alone",
];

/// What must be met of them on the tables of a seed alone.
const ENTRIES_NEVER_REACHED: [&str; 4] = [
    "enter: refused 1",
    "enter: its own node is listed",
    "enter: its own node is marked",
    "enter: its own node is another seat's too",
];

/// The titles that they must have.
const TITLES: [&str; 4] =
    ["title of one frame", "title of 2 to 300 frames", "title of 4294967295 frames", "title of another length"];

/// How holders must meet on the boards of the generated scripts, and on those of tables with many holders.
const BOARDS: [&str; 8] = [
    "board: two holders or more",
    "board: first frames not rising by seat",
    "board: holders that share a frame",
    "board: holders of the same run",
    "board: a holder inside another",
    "board: ends that touch",
    "board: a gap between holders",
    "board: gaps between holders, two or more",
];

/// How claims must wait in the generated scripts, and on the tables of a seed.
const WAITS: [&str; 15] = [
    "wait: in phase 2",
    "wait: in phase 4",
    "wait: the shared run starts with the waiting claim",
    "wait: the shared run starts with the claim waited at",
    "wait: the shared run starts with both",
    "wait: the shared run ends with the waiting claim",
    "wait: the shared run ends with the claim waited at",
    "wait: the shared run ends with both",
    "wait: a part of each claim is shared",
    "wait: all of the waiting claim is shared, not of the other",
    "wait: all of the claim waited at is shared, not of the other",
    "wait: all of both claims is shared",
    "wait: one frame is shared",
    "wait: the shared run starts above 2147483648",
    "wait: the shared run ends at 4294967295",
];

/// How they must wait on the tables of a seed, and never do in a script: there each wait has its cause.
const WAITS_NEVER_REACHED: [&str; 8] = [
    "wait: no frame is shared, in phase 2",
    "wait: no frame is shared, in phase 4",
    "wait: no frame is shared, and the ends touch",
    "wait: no frame is shared, and the ends lie apart",
    "wait: of a reader at a reader, in phase 2",
    "wait: of a reader at a reader, in phase 4",
    "wait: at its own node, in phase 2",
    "wait: at its own node, in phase 4",
];
