//! The watcher of stores, where there is one: a volatile store is one that the compiler neither leaves out nor doubles. And
//! what the second machine stores when it takes nodes out, fetches and enters, and when a claim is linked on a sheet, by hand.

use crate::machine::Answer;
use crate::machine::Profile::{Ordinary, Sheet};
use crate::stores::{Store, Table, Watcher};
use crate::tables::Tables;
use crate::tests::layout::{
    place, CUR, END, HEAD, KIND, MARK, NEXT, NODE_WORDS, PHASE, PREV, SEAT_WORDS, START, WRITERS,
};
use crate::tests::LONGEST_TITLE;

const NODES: [u32; 6] = [10, 11, 12, 13, 14, 15];
const SEATS: [u32; 8] = [20, 21, 22, 23, 24, 25, 26, 27];

/// A store to the node table that changes no other word.
pub fn store(word: usize, value: u32, changes: bool) -> Store {
    Store { table: Table::Nodes, word, value, changed_to: word + usize::from(changes) }
}

fn put(word: &mut u32, value: u32) {
    unsafe { std::ptr::write_volatile(word, value) }
}

/// What the watcher sees of a call on these tables, and what it leaves in them, or nothing where there is no watcher.
fn seen(call: impl FnOnce(&mut [u32], &mut [u32])) -> Option<(Vec<Store>, [u32; 6], [u32; 8])> {
    let (mut nodes, mut seats) = (NODES, SEATS);
    let ((), stores) = Watcher::new()?.watch(&mut nodes, &mut seats, call);
    Some((stores, nodes, seats))
}

#[test]
fn a_store_of_an_equal_value_is_seen() {
    if let Some(seen) = seen(|nodes, _| put(&mut nodes[2], 12)) {
        assert_eq!(seen, (vec![store(2, 12, false)], NODES, SEATS));
    }
}

#[test]
fn two_stores_to_one_word_are_seen_as_two() {
    let call = |nodes: &mut [u32], _: &mut [u32]| {
        put(&mut nodes[2], 7);
        put(&mut nodes[2], 12);
    };
    if let Some(seen) = seen(call) {
        assert_eq!(seen, (vec![store(2, 7, true), store(2, 12, true)], NODES, SEATS));
    }
}

#[test]
fn a_read_is_no_store() {
    let call = |nodes: &mut [u32], seats: &mut [u32]| {
        let words = nodes.iter().chain(seats.iter());
        let sum: u32 = words.map(|word| unsafe { std::ptr::read_volatile(word) }).sum();
        assert_eq!(sum, NODES.iter().chain(&SEATS).sum());
    };
    if let Some(seen) = seen(call) {
        assert_eq!(seen, (vec![], NODES, SEATS));
    }
}

#[test]
fn stores_are_seen_in_their_order_in_both_tables() {
    let call = |nodes: &mut [u32], seats: &mut [u32]| {
        put(&mut seats[7], 1);
        put(&mut nodes[5], 2);
        put(&mut nodes[0], 3);
        put(&mut seats[0], 20);
    };
    if let Some((stores, nodes, seats)) = seen(call) {
        let last_seat = Store { table: Table::Seats, word: 7, value: 1, changed_to: 8 };
        let first_seat = Store { table: Table::Seats, word: 0, value: 20, changed_to: 0 };
        assert_eq!(stores, [last_seat, store(5, 2, true), store(0, 3, true), first_seat]);
        assert_eq!((nodes, seats), ([3, 11, 12, 13, 14, 2], [20, 21, 22, 23, 24, 25, 26, 1]));
    }
}

#[test]
fn a_store_of_two_words_is_one() {
    let two_words = |low: u32, high: u32| u64::from(high) << 32 | u64::from(low);
    let call = |nodes: &mut [u32], _: &mut [u32]| {
        let pair = nodes[2..4].as_mut_ptr().cast::<u64>();
        // the words 2 and 3, whose address is a multiple of eight since the table begins a page
        unsafe {
            pair.write_volatile(two_words(12, 7));
            pair.write_volatile(two_words(8, 7));
            pair.write_volatile(two_words(8, 7));
        }
    };
    if let Some((stores, nodes, _)) = seen(call) {
        let pair = |value, changed_to| Store { table: Table::Nodes, word: 2, value, changed_to };
        assert_eq!(stores, [pair(12, 4), pair(8, 3), pair(8, 2)]);
        assert_eq!(nodes, [10, 11, 8, 7, 14, 15]);
    }
}

#[cfg(all(target_os = "linux", target_arch = "x86_64"))]
mod where_there_is_one {
    use super::{put, seen};
    use std::os::unix::process::ExitStatusExt;

    #[test]
    #[should_panic(expected = "16385 stores, and room to note 16384")]
    fn more_stores_than_can_be_noted_are_told() {
        seen(|nodes, _| (0..16_385).for_each(|value| put(&mut nodes[0], value)));
    }

    /// Made by the test behind it, in a process of its own.
    #[test]
    #[ignore = "it ends the process"]
    fn a_store_elsewhere() {
        seen(|_, _| unsafe { (16 as *mut u32).write_volatile(0) });
    }

    #[test]
    fn a_store_elsewhere_ends_the_program_as_ever() {
        let tests = std::env::current_exe().expect("it has a name");
        let name = "tests::stores::where_there_is_one::a_store_elsewhere";
        let ended = std::process::Command::new(tests).args(["--exact", name, "--ignored"]).output().expect("it runs");
        let segmentation_fault = 11;
        assert_eq!(ended.status.signal(), Some(segmentation_fault), "{ended:?}");
    }
}

/// The list 3 1 6 2 5 4 of six nodes, some of them marked, and two seats that are idle.
pub fn listed_and_marked(marks: [u32; 6]) -> Tables {
    let mut tables = Tables::fresh(Ordinary, 6, 2, LONGEST_TITLE);
    let mut link = HEAD;
    for (node, mark) in [3, 1, 6, 2, 5, 4].into_iter().zip(marks) {
        tables.nodes[link] = node;
        link = place(node, NEXT);
        for (field, value) in [(START, 10 * node), (END, 10 * node + 5), (KIND, 2), (MARK, mark)] {
            tables.nodes[place(node, field)] = value;
        }
    }
    tables
}

/// Marks on the list, the node that is taken, and the links that differ: of which node (0 for the head), and what it becomes.
type TakingOut = ([u32; 6], u32, &'static [(u32, u32)]);

const TAKINGS_OUT: [TakingOut; 9] = [
    ([1, 0, 0, 0, 0, 0], 3, &[(0, 1)]),
    ([1, 1, 1, 0, 0, 0], 1, &[(0, 2)]),
    ([0, 0, 1, 0, 0, 0], 6, &[(1, 2)]),
    ([0, 1, 1, 1, 0, 0], 1, &[(3, 5)]),
    ([0, 0, 0, 0, 0, 1], 4, &[(5, 0)]),
    ([0, 0, 0, 1, 1, 1], 2, &[(6, 0)]),
    ([1, 0, 1, 1, 0, 1], 2, &[(0, 1), (1, 5), (5, 0)]),
    ([0, 1, 0, 1, 0, 1], 1, &[(3, 6), (6, 5), (5, 0)]),
    ([1, 1, 1, 1, 1, 1], 1, &[(0, 0)]),
];

pub fn link_of(node: u32) -> usize {
    if node == 0 {
        HEAD
    } else {
        place(node, NEXT)
    }
}

#[test]
fn taking_out_changes_the_links_that_differ() {
    for (marks, taken, links) in TAKINGS_OUT {
        let mut tables = listed_and_marked(marks);
        let mut then = tables.nodes.clone();
        for &(node, next) in links {
            then[link_of(node)] = next;
        }
        then[place(taken, START)..][..NODE_WORDS].copy_from_slice(&[7, 8, 1, 0, 0]);
        assert_eq!(tables.reserve(1, 7, 8, 1), Ok(Answer::Node(taken)), "{marks:?}");
        assert_eq!((tables.nodes, tables.seats), (then, vec![0, 0, 0, 0, 7, taken, 0, 0]), "{marks:?}");
    }
}

#[test]
fn taking_out_stores_the_links_that_differ_and_no_other() {
    for (marks, taken, links) in TAKINGS_OUT {
        let Tables { mut nodes, mut seats, .. } = listed_and_marked(marks);
        let mut watcher = match Watcher::new() {
            Some(watcher) => watcher,
            None => return,
        };
        let (_, stores) =
            watcher.watch(&mut nodes, &mut seats, |nodes, seats| Ordinary.reserve(nodes, seats, 1, 7, 8, 1));
        let elsewhere = |store: &Store| {
            let words_of_taken = place(taken, START)..place(taken, START) + NODE_WORDS;
            store.table == Table::Nodes && !words_of_taken.contains(&store.word)
        };
        let stored: Vec<Store> = stores.into_iter().filter(elsewhere).collect();
        let due: Vec<Store> = links.iter().map(|&(node, next)| store(link_of(node), next, true)).collect();
        assert_eq!(stored, due, "{marks:?}");
    }
}

type OnTables = fn(&mut [u32], &mut [u32]);

/// What the second machine stores of the seats, and how many words of the nodes: seat 1 with these words is entered or stepped.
fn stored_of_seats(words: [u32; 4], call: OnTables) -> Option<(Vec<Store>, usize)> {
    let Tables { mut nodes, mut seats, .. } = listed_and_marked([0; 6]);
    nodes[link_of(2)] = 0;
    seats[SEAT_WORDS..].copy_from_slice(&words);
    let ((), stores) = Watcher::new()?.watch(&mut nodes, &mut seats, call);
    let (of_seats, of_nodes): (Vec<Store>, Vec<Store>) =
        stores.into_iter().partition(|store| store.table == Table::Seats);
    Some((of_seats, of_nodes.len()))
}

/// A store of one word of seat 1, which changes it.
fn in_seat_1(field: usize, value: u32) -> Store {
    Store { table: Table::Seats, word: SEAT_WORDS + field, value, changed_to: SEAT_WORDS + field + 1 }
}

#[test]
fn enter_and_a_step_in_phase_7_store_phase_and_cur() {
    let enters: [OnTables; 2] = [
        |nodes, seats| assert_eq!(Ordinary.enter(nodes, seats, 1), Ok(Answer::On)),
        |nodes, seats| assert_eq!(Ordinary.step(nodes, seats, 1), Ok(Answer::On)),
    ];
    for enters in enters {
        if let Some(stored) = stored_of_seats([7, 5, 0, 0], enters) {
            assert_eq!(stored, (vec![in_seat_1(PHASE, 1), in_seat_1(CUR, 3)], 0));
        }
    }
    if let Some(stored) = stored_of_seats([5, 5, 0, 0], |nodes, seats| {
        nodes[WRITERS] = 1;
        assert_eq!(Ordinary.enter(nodes, seats, 1), Err(14));
    }) {
        assert_eq!(stored, (vec![], 1));
    }
}

/// On a sheet: own's next, the link and the count; of the seat phase and prev, as cur is 0 already.
#[test]
fn a_claim_that_holds_as_soon_as_it_is_linked_stores_three_words_of_the_nodes() {
    let links: OnTables = |nodes, seats| assert_eq!(Sheet.step(nodes, seats, 1), Ok(Answer::Held));
    if let Some(stored) = stored_of_seats([1, 5, 2, 0], links) {
        assert_eq!(stored, (vec![in_seat_1(PHASE, 5), in_seat_1(PREV, 0)], 3));
    }
}

#[test]
fn a_fetch_stores_phase_and_own_of_its_seat() {
    let fetches: [([u32; 4], OnTables); 2] = [
        ([0; 4], |nodes, seats| assert_eq!(Ordinary.reserve(nodes, seats, 1, 7, 8, 1), Ok(Answer::Node(4)))),
        ([6, 5, 0, 0], |nodes, seats| assert_eq!(Ordinary.step(nodes, seats, 1), Ok(Answer::On))),
    ];
    for (words, fetch) in fetches {
        if let Some((stores, _)) = stored_of_seats(words, fetch) {
            let stored = stores.iter().map(|store| (store.word, store.changed_to.max(store.word + 1)));
            assert!(stored.clone().all(|(first, end)| first >= SEAT_WORDS && end <= SEAT_WORDS + PREV), "{stores:?}");
            assert!(stored.count() > 0);
        }
    }
}

#[test]
fn where_nothing_is_marked_nothing_is_taken_out_or_stored() {
    let tables = listed_and_marked([0; 6]);
    let mut after = tables.clone();
    assert_eq!((after.reserve(1, 7, 8, 1), &after), (Err(8), &tables));
    let Tables { mut nodes, mut seats, .. } = tables;
    if let Some(mut watcher) = Watcher::new() {
        let watched = watcher.watch(&mut nodes, &mut seats, |nodes, seats| Ordinary.reserve(nodes, seats, 1, 7, 8, 1));
        assert_eq!(watched, (Err(8), vec![]));
    }
}
