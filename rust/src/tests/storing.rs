//! What is said of stores that were made up: which of them a call may make. No watcher is needed.

use crate::driver::{outcome, Call, Case};
use crate::library_of;
use crate::machine::Profile::{self, Ordinary, Sheet};
use crate::machine::PROFILES;
use crate::stores::{Store, Table};
use crate::storing::{judge, Watched};
use crate::tables::Tables;
use crate::tests::layout::{
    place, CUR, HEAD, KIND, MARK, NEXT, NODE_WORDS, OWN, PHASE, PREV, READERS, SEAT_WORDS, START, TITLE, WRITERS,
};
use crate::tests::stores::{link_of, listed_and_marked, store};

/// What is wrong with these stores, if the call answers and leaves what it should.
fn wrong(tables: &Tables, call: Call, stores: &[Store]) -> Option<String> {
    let case = Case { tables: tables.clone(), call };
    let after = outcome(&library_of!(crate::library), &case);
    let (nodes, seats) = (after.nodes.words().to_vec(), after.seats.words().to_vec());
    let left = Tables { profile: tables.profile, nodes, seats };
    judge(&case, &Watched { answer: after.answer, tables: left, stores: stores.to_vec() }).wrong
}

/// Seat 1 reserves on the list 3 1 6 2 5 4, of which 3, 6, 2 and 4 are marked, and takes node 2.
fn wrong_of_reserve(stores: &[Store]) -> Option<String> {
    let tables = listed_and_marked([1, 0, 1, 1, 0, 1]);
    wrong(&tables, Call::Reserve { seat: 1, start: 7, end: 8, kind: 1 }, stores)
}

/// The links that differ.
fn links() -> [Store; 3] {
    [(0, 1), (1, 5), (5, 0)].map(|(node, next)| store(link_of(node), next, true))
}

fn in_seats(word: usize, value: u32, changed_to: usize) -> Store {
    Store { table: Table::Seats, word, value, changed_to }
}

#[test]
fn the_links_that_differ_are_right() {
    assert_eq!(wrong_of_reserve(&links()), None);
    let taken: Vec<Store> = (0..NODE_WORDS).map(|field| store(place(2, field), 0, field == MARK)).collect();
    let seat = [in_seats(SEAT_WORDS, 7, SEAT_WORDS + OWN + 1), in_seats(SEAT_WORDS + OWN, 2, SEAT_WORDS + OWN)];
    assert_eq!(wrong_of_reserve(&[&taken, links().as_slice(), &seat].concat()), None);
}

#[test]
fn links_left_out_or_stored_otherwise_are_wrong() {
    let [head, middle, last] = links();
    let wrong_lists: [(&str, &[Store]); 7] = [
        ("none", &[]),
        ("the last left out", &[head, middle]),
        ("the head left out", &[middle, last]),
        ("the middle one twice", &[head, middle, middle, last]),
        ("the head again", &[head, middle, last, store(HEAD, 1, false)]),
        ("another order", &[last, middle, head]),
        ("first to a marked node", &[head, store(link_of(1), 2, true), middle, last]),
    ];
    for (name, stores) in wrong_lists {
        assert!(wrong_of_reserve(stores).is_some(), "{name}");
    }
}

#[test]
fn stores_elsewhere_are_wrong() {
    let elsewhere = [
        ("the count of readers", store(READERS, 0, false)),
        ("the title", store(TITLE, u32::MAX, false)),
        ("the mark of a marked node", store(place(6, MARK), 1, false)),
        ("the next of a marked node", store(link_of(6), 2, false)),
        ("a claim that stays", store(place(1, KIND), 2, false)),
        ("another seat", in_seats(PHASE, 0, PHASE)),
        ("prev, which is 0", in_seats(SEAT_WORDS + PREV, 0, SEAT_WORDS + PREV)),
        ("cur, which is 0", in_seats(SEAT_WORDS + CUR, 0, SEAT_WORDS + CUR)),
        ("behind the seats", in_seats(2 * SEAT_WORDS, 0, 2 * SEAT_WORDS)),
        (
            "from the taken node into the next",
            Store { changed_to: place(3, START) + 1, ..store(place(2, MARK), 0, true) },
        ),
    ];
    for (name, strange) in elsewhere {
        let [head, middle, last] = links();
        assert!(wrong_of_reserve(&[head, middle, strange, last]).is_some(), "{name}");
    }
}

#[test]
fn where_a_node_is_free_a_link_is_wrong() {
    let mut tables = listed_and_marked([1, 0, 1, 1, 0, 1]);
    tables.nodes[link_of(5)] = 0;
    let reserves = Call::Reserve { seat: 1, start: 7, end: 8, kind: 1 };
    assert_eq!(wrong(&tables, reserves.clone(), &[store(place(4, MARK), 0, true)]), None);
    assert!(wrong(&tables, reserves, &[store(HEAD, 3, false)]).is_some());
}

#[test]
fn a_refused_call_and_a_look_store_nothing() {
    let tables = listed_and_marked([0; 6]);
    let calls = [
        Call::Clear { title: 0 },
        Call::Reserve { seat: 1, start: 7, end: 8, kind: 1 },
        Call::Enter { seat: 1 },
        Call::Step { seat: 1, shared: [0; 2] },
        Call::Release { seat: 1 },
        Call::Run { entries: vec![1], budget: 9 },
        Call::Run { entries: vec![1], budget: 0 },
        Call::Board { rows: vec![0; 8] },
        Call::FreeCount,
    ];
    for call in calls {
        assert_eq!(wrong(&tables, call.clone(), &[]), None);
        for strange in [store(link_of(5), 4, false), in_seats(SEAT_WORDS, 0, SEAT_WORDS)] {
            assert!(wrong(&tables, call.clone(), &[strange]).is_some(), "{call:?} {strange}");
        }
    }
}

/// The words of the node table that a call may store.
fn may_store(tables: &Tables, call: &Call) -> Vec<usize> {
    let allowed = |&word: &usize| wrong(tables, call.clone(), &[store(word, 0, false)]).is_none();
    (0..tables.nodes.len()).filter(allowed).collect()
}

/// A seat's phase, prev and cur, and the words of the node table that its step may store.
type Stepping = ([u32; 3], &'static [usize]);

/// Node 4 writes and is off the list 3 1 6 2 5, of which 1 is marked; seat 0 has it.
fn assert_steps(profile: Profile, steps: &[Stepping]) {
    let mut tables = Tables { profile, ..listed_and_marked([0, 1, 0, 0, 0, 0]) };
    tables.nodes[link_of(5)] = 0;
    for ([phase, prev, cur], may) in steps {
        tables.seats[..SEAT_WORDS].copy_from_slice(&[*phase, 4, *prev, *cur]);
        tables.nodes[WRITERS] = u32::from(*phase == 5);
        for call in [Call::Step { seat: 0, shared: [0; 2] }, Call::Run { entries: vec![0], budget: 9 }] {
            assert_eq!(may_store(&tables, &call), *may, "{profile:?} {phase} {prev} {cur}");
        }
    }
}

/// What both profiles step alike.
const STEPS: [Stepping; 7] = [
    ([1, 3, 1], &[NEXT_OF_3]), // unlink
    ([1, 6, 1], &[]),          // unlink behind another node
    ([1, 1, 6], &[]),          // insert behind a marked node
    ([1, 6, 2], &[]),          // pass
    ([2, 3, 1], &[]),          // the wait is over
    ([5, 0, 0], &[]),          // holding
    ([7, 0, 0], &[]),          // enter
];

const NEXT_OF_3: usize = place(3, NEXT);
const NEXT_OF_4: usize = place(4, NEXT);
const NEXT_OF_5: usize = place(5, NEXT);
const MARK_OF_4: usize = place(4, MARK);

#[test]
fn a_step_stores_no_word_but_those_of_its_rule() {
    assert_steps(Ordinary, &STEPS);
    assert_steps(
        Ordinary,
        &[
            ([1, 5, 0], &[NEXT_OF_4, NEXT_OF_5]), // insert
            ([3, 0, 4], &[WRITERS]),              // hold
            ([3, 5, 0], &[MARK_OF_4]),            // withdraw
        ],
    );
}

#[test]
fn nor_does_one_on_a_sheet() {
    assert_steps(Sheet, &STEPS);
    assert_steps(
        Sheet,
        &[
            ([1, 5, 0], &[WRITERS, NEXT_OF_4, NEXT_OF_5]), // insert, which holds
            ([3, 0, 4], &[]),                              // refused, as are the phases that a sheet has not
            ([4, 0, 4], &[]),
            ([6, 0, 0], &[]),
        ],
    );
}

/// Seat 0 has reserved node 4, is entered, and steps: of a sheet the count of readers is nobody's to store.
#[test]
fn a_run_of_several_entries_stores_no_title_and_on_a_sheet_no_count_of_readers() {
    for (profile, kept) in [(Ordinary, &[TITLE][..]), (Sheet, &[READERS, TITLE])] {
        let mut tables = Tables { profile, ..listed_and_marked([0, 1, 0, 0, 0, 0]) };
        tables.nodes[link_of(5)] = 0;
        tables.seats[..SEAT_WORDS].copy_from_slice(&[7, 4, 0, 0]);
        let others: Vec<usize> = (0..tables.nodes.len()).filter(|word| !kept.contains(word)).collect();
        assert_eq!(may_store(&tables, &Call::Run { entries: vec![0, 0], budget: 9 }), others);
    }
}

/// Seat 1 has reserved node 4, and seat 0 is idle.
#[test]
fn enter_stores_its_phase_and_cur_and_no_word_of_a_node() {
    let mut tables = listed_and_marked([0, 1, 0, 0, 0, 0]);
    tables.nodes[link_of(5)] = 0;
    tables.seats[SEAT_WORDS..].copy_from_slice(&[7, 4, 0, 0]);
    let enters = Call::Enter { seat: 1 };
    let allowed_in = |made: fn(usize) -> Store, words: usize| -> Vec<usize> {
        (0..words).filter(|&word| wrong(&tables, enters.clone(), &[made(word)]).is_none()).collect()
    };
    assert_eq!(allowed_in(|word| in_seats(word, 0, word), tables.seats.len()), [SEAT_WORDS + PHASE, SEAT_WORDS + CUR]);
    assert_eq!(allowed_in(|word| store(word, 0, false), tables.nodes.len()), [0; 0]);
    let whole_seat = in_seats(SEAT_WORDS + PHASE, 1, SEAT_WORDS + CUR + 1);
    assert!(wrong(&tables, enters, &[whole_seat]).is_some());
}

#[test]
fn release_stores_its_mark_and_its_count() {
    for profile in PROFILES {
        let mut tables = Tables { profile, ..listed_and_marked([0; 6]) };
        tables.seats[..SEAT_WORDS].copy_from_slice(&[5, 4, 0, 0]);
        tables.nodes[WRITERS] = 1;
        assert_eq!(may_store(&tables, &Call::Release { seat: 0 }), [WRITERS, MARK_OF_4]);
    }
}

#[test]
fn kind_1_on_a_sheet_stores_nothing() {
    let tables = Tables { profile: Sheet, ..listed_and_marked([1, 0, 1, 1, 0, 1]) };
    let reserves = Call::Reserve { seat: 1, start: 7, end: 8, kind: 1 };
    assert_eq!(wrong(&tables, reserves.clone(), &[]), None);
    assert_eq!(may_store(&tables, &reserves), [0; 0]);
    assert!(wrong(&tables, reserves, &links()).is_some());
}
