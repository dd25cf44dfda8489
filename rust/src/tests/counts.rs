//! How many hold, known at once: the two counts of 02 along the histories, after any call on any sound tables, and wrong.

use crate::driver::Family;
use crate::generate::good;
use crate::machine::Profile::Ordinary;
use crate::machine::{Answer, MOST_SEATS, ROW_WORDS};
use crate::random::Random;
use crate::script::read_script;
use crate::tables::{many_holders, many_reserved, sound_words, Tables};
use crate::tests::histories::{History, H1, H11, H2, H3, H4, H5, H6, H7, H8, H9, THEN_H10};
use crate::tests::layout::{counts_kept, counts_over_seats, place, word, KIND, MARK, OWN, PHASE, READERS};
use crate::tests::layout::{SEAT_WORDS, WRITERS};
use crate::tests::{refused_by_every_call, script_of};
use std::collections::BTreeMap;

fn assert_counted(Tables { nodes, seats, .. }: &Tables, what: &str) {
    assert_eq!(counts_kept(nodes), counts_over_seats(nodes, seats), "{what}: {nodes:?} {seats:?}");
}

/// The two counts after each call of a script, which are those over the seats.
pub fn counts_after_each_call(script: &[u8]) -> Vec<[u32; 2]> {
    let script = read_script(script).expect("a good script");
    let mut tables = Tables::fresh(Ordinary, script.nodes, script.seats, script.title);
    let rows = script.rows.into_iter().take(script.count as usize);
    rows.map(|row| {
        // refused or not
        let _ = tables.call(row);
        assert_counted(&tables, &format!("{row:?}"));
        counts_kept(&tables.nodes)
    })
    .collect()
}

/// The counts along a history, two digits for each call: readers, then writers.
fn along((nodes, seats, bodies): History) -> String {
    let counts = counts_after_each_call(script_of(nodes, seats, bodies).as_bytes());
    counts.iter().map(|[readers, writers]| format!("{readers}{writers}")).collect::<Vec<String>>().join(" ")
}

#[test]
fn h1_a_writer_that_waits_counts_once_it_holds() {
    assert_eq!(along(H1), "00 00 00 01 01 01 01 00 00 00 00 01");
}

#[test]
fn h2_two_writers_and_h3_one() {
    assert_eq!(along(H2), "00 00 00 01 01 01 01 01 01 02");
    assert_eq!(along(H3), "00 00 00 01 01 01 01 01");
}

#[test]
fn h4_and_h5_two_readers() {
    assert_eq!(along(H4), "00 00 00 10 10 10 10 10 20 20 20 20");
    assert_eq!(along(H5), "00 00 00 10 10 10 10 10 20");
}

#[test]
fn h6_to_h8_and_h11_what_is_released_or_refused_does_not_count() {
    assert_eq!(along(H6), "00 00 00 01 00 00 00");
    assert_eq!(along(H7), "00 00 00 01 01");
    assert_eq!(along(H8), "00 00 00 01 01 01 01 00 00");
    assert_eq!(along(H11), "00 00 00");
}

/// Seat 2 waits in phase 4 before it holds, and seat 3 goes back and enters anew: the one counts once, the other never.
#[test]
fn h9_and_h10_a_reader_that_waited_counts_once_and_a_withdrawal_not_at_all() {
    assert_eq!(
        along((H9.0, H9.1, &format!("{}; {THEN_H10}", H9.2))),
        "00 00 00 10 10 10 10 10 20 20 20 20 20 20 20 20 20 20 20 20 20 20 20 20 30 30 30 30 30"
    );
}

/// A reader and a writer hold at once, are stepped on, are refused a second claim, and are released.
#[test]
fn a_reader_and_a_writer_are_counted_apart() {
    assert_eq!(
        along((
            4,
            4,
            "v 0 0 9 1; e 0; s 0; s 0; v 1 20 30 2; e 1; s 1; s 1; s 1; s 1; s 0; s 1; v 0 0 9 1; e 0; r 0; r 0; r 1"
        )),
        "00 00 00 10 10 10 10 10 10 11 11 11 11 11 01 01 00"
    );
}

#[test]
fn the_counts_are_those_over_the_seats_after_every_call_of_generated_scripts() {
    let mut random = Random::new(9);
    let mut most = [0, 0];
    for _ in 0..100 {
        for [readers, writers] in counts_after_each_call(&good(&mut random)) {
            most = [readers.max(most[0]), writers.max(most[1])];
        }
    }
    assert!(most[0] >= 30 && most[1] >= 30, "{most:?}");
}

/// Sound tables that nobody need have reached, own nodes shared, marked or off the list among them, and one of their seats.
fn some_tables(random: &mut Random) -> (Tables, u32) {
    let families: [Family; 3] = [sound_words, many_holders, many_reserved];
    let tables = random.pick(&families)(random, Ordinary);
    let seat = random.below(tables.seat_count());
    (tables, seat)
}

fn phase(tables: &Tables, seat: u32) -> u32 {
    tables.seats[SEAT_WORDS * seat as usize + PHASE]
}

/// A one at the count of the kind of a seat's own node, a zero at the other.
fn one_of_own_kind(Tables { nodes, seats, .. }: &Tables, seat: u32) -> [i64; 2] {
    let own = seats[SEAT_WORDS * seat as usize + OWN];
    [1, 2].map(|kind| i64::from(word(nodes, own, KIND) == kind))
}

/// How far a call raised the two counts, which are right after it.
fn rise(before: &Tables, after: &Tables) -> [i64; 2] {
    assert_counted(after, &format!("after a call on {before:?}"));
    [READERS, WRITERS].map(|at| i64::from(after.nodes[at]) - i64::from(before.nodes[at]))
}

#[test]
fn of_all_steps_only_those_that_come_to_hold_count() {
    let mut random = Random::new(10);
    let mut came_to_hold = [0, 0];
    let mut others = BTreeMap::new();
    for _ in 0..20_000 {
        let (tables, seat) = some_tables(&mut random);
        let mut after = tables.clone();
        let answer = after.step(seat);
        if phase(&tables, seat) != 5 && answer == Ok(Answer::Held) {
            let [reader, writer] = one_of_own_kind(&tables, seat);
            assert_eq!(rise(&tables, &after), [reader, writer], "{tables:?} {seat}");
            came_to_hold = [came_to_hold[0] + reader, came_to_hold[1] + writer];
        } else {
            assert_eq!(rise(&tables, &after), [0, 0], "{tables:?} {seat}");
            *others.entry(phase(&tables, seat)).or_insert(0) += 1;
        }
    }
    assert!(came_to_hold.iter().all(|&times| times >= 50), "{came_to_hold:?}");
    assert!((0..=7).all(|phase| others.get(&phase) >= Some(&500)), "{others:?}");
}

#[test]
fn a_release_takes_one_off_the_count_of_its_kind() {
    let mut random = Random::new(11);
    let mut released = [0, 0];
    for _ in 0..10_000 {
        let (tables, seat) = some_tables(&mut random);
        let mut after = tables.clone();
        let answer = after.release(seat);
        if phase(&tables, seat) == 5 {
            let [reader, writer] = one_of_own_kind(&tables, seat);
            assert_eq!((answer, rise(&tables, &after)), (Ok(Answer::Out), [-reader, -writer]), "{tables:?} {seat}");
            released = [released[0] + reader, released[1] + writer];
        } else {
            assert_eq!((answer, &after), (Err(7), &tables), "{seat}");
        }
    }
    assert!(released.iter().all(|&times| times >= 1000), "{released:?}");
}

#[test]
fn reserve_and_enter_count_nothing() {
    let mut random = Random::new(12);
    let mut accepted = [0, 0];
    for _ in 0..10_000 {
        let (tables, seat) = some_tables(&mut random);
        let mut after = tables.clone();
        accepted[0] += u32::from(after.reserve(seat, 3, 5, random.between(1, 2)).is_ok());
        assert_eq!(rise(&tables, &after), [0, 0], "{tables:?} {seat}");
        let mut after = tables.clone();
        accepted[1] += u32::from(after.enter(seat).is_ok());
        assert_eq!(rise(&tables, &after), [0, 0], "{tables:?} {seat}");
    }
    assert!(accepted.iter().all(|&times| times >= 500), "{accepted:?}");
}

#[test]
fn run_leaves_the_counts_right() {
    let mut random = Random::new(13);
    let mut rose = [0, 0];
    for _ in 0..5_000 {
        let (tables, _) = some_tables(&mut random);
        let mut after = tables.clone();
        let entries: Vec<u32> = (0..20).map(|_| random.below(tables.seat_count())).collect();
        after.run(&entries, u32::MAX);
        let [readers, writers] = rise(&tables, &after);
        rose = [rose[0] + readers, rose[1] + writers];
    }
    assert!(rose.iter().all(|&times| times >= 50), "{rose:?}");
}

#[test]
fn the_board_has_as_many_rows_as_are_counted() {
    let mut random = Random::new(14);
    for _ in 0..2_000 {
        let tables = many_holders(&mut random, Ordinary);
        let (rows, _) = tables.board(&mut [0; ROW_WORDS * MOST_SEATS]).expect("sound tables, and rows enough");
        assert_eq!(rows, tables.nodes[READERS] + tables.nodes[WRITERS], "{tables:?}");
    }
}

/// Seats 0 and 1 read the same frames and seat 2 writes others, each on a node of its own; seat 3 is idle.
fn two_readers_and_a_writer() -> Tables {
    let mut tables = Tables::fresh(Ordinary, 4, 4, 30);
    for (seat, start, kind) in [(0, 0, 1), (1, 0, 1), (2, 20, 2)] {
        tables.reserve(seat, start, start + 10, kind).expect("a node is free");
        tables.enter(seat).expect("it has reserved");
        while tables.step(seat).expect("the seat is under way") != Answer::Held {}
    }
    tables
}

/// These counts are right in the tables, and those are damage: to every call but clear, which writes 0.
fn assert_counts(tables: &Tables, right: [u32; 2], wrong: &[[u32; 2]]) {
    let mut tables = tables.clone();
    assert_eq!((counts_kept(&tables.nodes), tables.are_sound()), (right, true));
    for counts in wrong {
        [tables.nodes[READERS], tables.nodes[WRITERS]] = *counts;
        refused_by_every_call(&format!("{counts:?} for {right:?}"), &tables);
    }
    assert_eq!(tables.clear(30), Ok(()));
    assert_eq!(tables, Tables::fresh(Ordinary, 4, 4, 30));
}

#[test]
fn a_wrong_count_is_damage() {
    let too_many = [[3, 1], [2, 2], [3, 2], [258, 1], [2, 257], [u32::MAX, 1], [2, u32::MAX]];
    let too_few = [[1, 1], [2, 0], [0, 1], [0, 0]];
    let right_sum = [[1, 2], [3, 0], [0, 3]];
    assert_counts(&two_readers_and_a_writer(), [2, 1], &[&too_many[..], &too_few, &right_sum].concat());
    let fresh = Tables::fresh(Ordinary, 4, 4, 30);
    assert_counts(&fresh, [0, 0], &[[1, 0], [0, 1], [1, 1], [u32::MAX, 0], [0, u32::MAX], [u32::MAX, 1]]);
}

#[test]
fn a_holder_of_a_marked_node_counts() {
    let mut tables = two_readers_and_a_writer();
    tables.nodes[place(tables.seats[SEAT_WORDS * 2 + OWN], MARK)] = 1;
    assert_counts(&tables, [2, 1], &[[2, 0]]);
}

#[test]
fn two_holders_of_one_node_both_count() {
    let mut tables = two_readers_and_a_writer();
    tables.seats[SEAT_WORDS + OWN] = tables.seats[OWN];
    assert_counts(&tables, [2, 1], &[[1, 1]]);
    for (seat, left) in [(0, [1, 1]), (1, [0, 1])] {
        assert_eq!(tables.release(seat), Ok(Answer::Out));
        assert_counts(&tables, left, &[[2, 1]]);
    }
}
