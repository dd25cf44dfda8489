//! Sheets of writers only, 02's (viii), by hand from its sentences: a claim that holds as soon as it is linked, kind 1 and its
//! place among the refusals, what is damage there, exclusion and how many steps a seat makes by itself; and what the histories
//! and tables by seed reach of them.

use crate::damages::{damaged, SHEET_DAMAGES};
use crate::generate::some_rows;
use crate::machine::Profile::{Ordinary, Sheet};
use crate::machine::{Answer, Profile, PROFILES};
use crate::random::Random;
use crate::script::{answer_text, read_script};
use crate::tables::{any_words, full_lists, many_reserved, many_waiters, many_walkers, sound_words, Tables};
use crate::tally::Tally;
use crate::tests::histories::{History, H1, H11, H2, H3, H6, H7, H8};
use crate::tests::layout::{counts_kept, place, word, END, HEAD, KIND, MARK, NEXT, NODE_WORDS, OWN, PHASE, READERS};
use crate::tests::layout::{SEAT_WORDS, START, WORDS_BEFORE_NODES, WRITERS};
use crate::tests::tables::tally_of_rounds;
use crate::tests::{refused_by_every_call, script_of, ENTRIES, ENTRIES_NEVER_REACHED, RESERVES, TITLES};
use crate::tests::{WAITS, WAITS_NEVER_REACHED};
use std::collections::HashSet;

const ON: Result<Answer, u32> = Ok(Answer::On);
const HELD: Result<Answer, u32> = Ok(Answer::Held);
const OUT: Result<Answer, u32> = Ok(Answer::Out);
const UNKNOWN_KIND: Result<Answer, u32> = Err(4);

fn sheet(nodes: u32, seats: u32, title: u32) -> Tables {
    Tables::fresh(Sheet, nodes, seats, title)
}

fn words_of(tables: &Tables, seat: u32) -> &[u32] {
    &tables.seats[SEAT_WORDS * seat as usize..][..SEAT_WORDS]
}

fn node_words(tables: &Tables, node: u32) -> &[u32] {
    &tables.nodes[place(node, START)..][..NODE_WORDS]
}

/// The seat reserves a node to write these frames, and enters.
fn enter(tables: &mut Tables, seat: u32, start: u32, end: u32) {
    tables.reserve(seat, start, end, 2).expect("a node is free");
    tables.enter(seat).expect("it has reserved");
}

/// It does so where no other claim is in its way, and holds with its next step.
fn hold(tables: &mut Tables, seat: u32, start: u32, end: u32) {
    enter(tables, seat, start, end);
    assert_eq!(tables.step(seat), HELD);
}

#[test]
fn a_claim_holds_as_soon_as_it_is_linked() {
    let mut tables = sheet(4, 3, 100);
    enter(&mut tables, 2, 10, 20);
    assert_eq!((words_of(&tables, 2), tables.nodes[HEAD], counts_kept(&tables.nodes)), (&[1, 1, 0, 0][..], 0, [0, 0]));
    assert_eq!(tables.step(2), HELD);
    assert_eq!((words_of(&tables, 2), tables.nodes[HEAD], counts_kept(&tables.nodes)), (&[5, 1, 0, 0][..], 1, [0, 1]));
    assert_eq!(node_words(&tables, 1), [10, 20, 2, 0, 0]);
    let then = tables.clone();
    assert_eq!((tables.step(2), &tables), (HELD, &then));
}

/// Between two holders: own's next is the one behind, and the link of the one before is own.
#[test]
fn it_holds_so_in_the_middle_of_a_list_too() {
    let mut tables = sheet(4, 3, 100);
    hold(&mut tables, 0, 40, 50);
    hold(&mut tables, 1, 10, 20);
    enter(&mut tables, 2, 20, 40);
    assert_eq!((tables.step(2), words_of(&tables, 2)), (ON, &[1, 3, 2, 1][..]));
    assert_eq!((tables.step(2), words_of(&tables, 2)), (HELD, &[5, 3, 0, 0][..]));
    assert_eq!(tables.listed().collect::<Vec<u32>>(), [2, 3, 1]);
    assert_eq!([2, 3, 1].map(|node| word(&tables.nodes, node, NEXT)), [3, 1, 0]);
    assert_eq!(counts_kept(&tables.nodes), [0, 3]);
}

/// The answers of the claim's life where nobody else is.
fn life(profile: Profile) -> Vec<String> {
    let mut tables = Tables::fresh(profile, 1, 1, 10);
    let mut answers = vec![tables.reserve(0, 0, 10, 2), tables.enter(0)];
    while answers.last() != Some(&HELD) {
        answers.push(tables.step(0));
    }
    answers.push(tables.release(0));
    answers.into_iter().map(answer_text).collect()
}

#[test]
fn the_life_of_a_claim_takes_four_messages_where_an_ordinary_writer_takes_five() {
    assert_eq!(life(Sheet), ["node 1", "on", "held", "out"]);
    assert_eq!(life(Ordinary), ["node 1", "on", "on", "held", "out"]);
}

/// What the calls of a history answer on a sheet, and the nodes that are listed then.
fn answers((nodes, seats, bodies): History) -> String {
    let script = read_script(script_of(nodes, seats, bodies).as_bytes()).expect("a good script");
    let mut tables = sheet(nodes, seats, script.title);
    let rows = script.rows.into_iter().take(script.count as usize);
    let texts: Vec<String> = rows.map(|row| answer_text(tables.call(row))).collect();
    let list: Vec<String> = tables.listed().map(|node| node.to_string()).collect();
    format!("{}; list {}", texts.join("; "), list.join(" "))
}

/// The histories that have writers alone: where a writer validated there, it holds already and is stepped once more.
#[test]
fn the_histories_of_writers_on_a_sheet() {
    assert_eq!(
        answers(H1),
        "node 1; on; held; held; node 2; on; wait 1 15 20; out; on; on; held; held; list 2",
        "H1: the wait is over, node 1 is unlinked, and seat 1 is linked"
    );
    assert_eq!(answers(H2), "node 1; on; held; held; node 2; on; on; held; held; held; list 1 2");
    assert_eq!(answers(H3), "node 1; on; held; held; node 2; on; wait 1 19 20; wait 1 19 20; list 1");
    assert_eq!(answers(H6), "node 1; on; held; held; out; node 1; on; list ");
    assert_eq!(answers(H7), "node 1; on; held; held; no 8; list 1");
    assert_eq!(answers(H8), "node 1; on; held; held; node 2; on; wait 1 0 10; out; no 8; list 1");
    assert_eq!(answers(H11), "no 3; node 1; on; list ");
}

#[test]
fn a_wait_names_the_node_and_the_shared_run_until_it_is_released() {
    let mut tables = sheet(4, 2, 100);
    hold(&mut tables, 0, 10, 30);
    for (start, end, shared) in [(20, 40, (20, 30)), (0, 11, (10, 11)), (12, 13, (12, 13)), (0, 100, (10, 30))] {
        let mut tables = tables.clone();
        enter(&mut tables, 1, start, end);
        let waits = Ok(Answer::Wait { node: 1, first: shared.0, end: shared.1 });
        assert_eq!([1, 1, 1].map(|seat| tables.step(seat)), [waits; 3], "{start}..{end}");
        assert_eq!(words_of(&tables, 1), [2, 2, 0, 1]);
        assert_eq!(tables.release(0), OUT);
        assert_eq!((tables.step(1), words_of(&tables, 1)), (ON, &[1, 2, 0, 1][..]));
        assert_eq!((tables.step(1), words_of(&tables, 1), tables.nodes[HEAD]), (ON, &[1, 2, 0, 0][..], 0));
        assert_eq!((tables.step(1), counts_kept(&tables.nodes)), (HELD, [0, 1]));
    }
}

#[test]
fn behind_a_marked_prev_nothing_is_linked_and_the_walk_starts_again() {
    let mut tables = sheet(4, 3, 100);
    hold(&mut tables, 0, 10, 20);
    enter(&mut tables, 1, 20, 30);
    assert_eq!((tables.step(1), words_of(&tables, 1)), (ON, &[1, 2, 1, 0][..]));
    assert_eq!(tables.release(0), OUT);
    let before = tables.nodes.clone();
    assert_eq!((tables.step(1), words_of(&tables, 1)), (ON, &[1, 2, 0, 1][..]));
    assert_eq!(tables.nodes, before);
    assert_eq!((tables.step(1), words_of(&tables, 1)), (ON, &[1, 2, 0, 0][..]));
    assert_eq!((tables.step(1), tables.nodes[HEAD]), (HELD, 2));
}

#[test]
fn where_another_was_linked_first_the_claim_looks_at_that_one() {
    let mut tables = sheet(4, 2, 100);
    enter(&mut tables, 0, 20, 30);
    enter(&mut tables, 1, 25, 40);
    assert_eq!(tables.step(0), HELD);
    let before = tables.nodes.clone();
    assert_eq!((tables.step(1), words_of(&tables, 1)), (ON, &[1, 2, 0, 1][..]));
    assert_eq!(tables.nodes, before);
    assert_eq!(tables.step(1), Ok(Answer::Wait { node: 1, first: 25, end: 30 }));
}

/// Two nodes for a title of twenty frames: seat 0 holds all of it, seat 1 waits, seat 2 is idle, and no node is free.
fn full_sheet() -> Tables {
    let mut tables = sheet(2, 3, 20);
    hold(&mut tables, 0, 0, 20);
    enter(&mut tables, 1, 10, 20);
    assert_eq!(tables.step(1), Ok(Answer::Wait { node: 1, first: 10, end: 20 }));
    tables
}

#[test]
fn kind_1_is_refused_4_behind_2_3_and_11_and_before_5_and_8() {
    let refused = |seat, start, end, kind| {
        let mut tables = full_sheet();
        let answer = tables.reserve(seat, start, end, kind);
        assert_eq!(tables, full_sheet());
        answer.expect_err("no node is free")
    };
    assert_eq!([refused(3, 25, 25, 1), refused(3, 10, 21, 1), refused(3, 10, 20, 1)], [2; 3]);
    assert_eq!([refused(2, 25, 25, 1), refused(0, 7, 7, 1), refused(2, 8, 7, 1)], [3; 3]);
    assert_eq!([refused(2, 10, 21, 1), refused(0, 19, u32::MAX, 1)], [11; 2]);
    assert_eq!([refused(0, 10, 20, 1), refused(1, 10, 20, 1), refused(2, 10, 20, 1)], [4; 3]);
    assert_eq!([refused(2, 0, 20, 0), refused(0, 0, 20, 3), refused(2, 0, 20, u32::MAX)], [4; 3]);
    assert_eq!([refused(0, 10, 20, 2), refused(1, 10, 20, 2)], [5; 2]);
    assert_eq!(refused(2, 10, 20, 2), 8);
    let mut damaged = full_sheet();
    damaged.nodes[HEAD] = 3;
    assert_eq!(damaged.reserve(2, 10, 20, 1), Err(1));
}

#[test]
fn a_fresh_sheet_takes_kind_2_alone() {
    for (kind, answer) in [(0, UNKNOWN_KIND), (1, UNKNOWN_KIND), (2, Ok(Answer::Node(1))), (3, UNKNOWN_KIND)] {
        assert_eq!(sheet(1, 1, 9).reserve(0, 0, 9, kind), answer, "{kind}");
    }
    assert_eq!(Tables::fresh(Ordinary, 1, 1, 9).reserve(0, 0, 9, 1), Ok(Answer::Node(1)));
}

#[test]
fn the_other_refusals_are_as_ever() {
    let mut tables = full_sheet();
    assert_eq!([0, 1, 2, 3].map(|seat| tables.enter(seat)), [Err(14), Err(14), Err(14), Err(2)]);
    assert_eq!([2, 3].map(|seat| tables.step(seat)), [Err(6), Err(2)]);
    assert_eq!([1, 2, 3].map(|seat| tables.release(seat)), [Err(7), Err(7), Err(2)]);
    assert_eq!(tables.board(&mut [0; 3]), Err(9));
    assert_eq!(tables.clear(0), Err(3));
    assert_eq!(tables, full_sheet());
    tables.nodes.push(0);
    assert_eq!([tables.clear(0), tables.clear(9)], [Err(1), Err(1)]);
    tables.nodes.pop();
    assert_eq!(tables.clear(9), Ok(()));
    assert_eq!(tables, sheet(2, 3, 9));
}

/// A seat's words that are sound where there are readers, and whether they are on a sheet. Nodes 1 and 2 have claims.
#[test]
fn there_is_no_phase_3_4_or_6() {
    let mut tables = full_sheet();
    for (words, sound) in [
        ([0, 0, 0, 0], true),
        ([1, 2, 0, 1], true),
        ([2, 2, 0, 1], true),
        ([3, 2, 0, 1], false),
        ([3, 1, 0, 0], false),
        ([4, 2, 0, 1], false),
        ([6, 2, 0, 0], false),
        ([7, 2, 0, 0], true),
    ] {
        tables.seats[2 * SEAT_WORDS..].copy_from_slice(&words);
        assert!(Tables { profile: Ordinary, ..tables.clone() }.are_sound(), "{words:?}");
        if sound {
            assert!(tables.are_sound(), "{words:?}");
        } else {
            refused_by_every_call(&format!("{words:?}"), &tables);
        }
    }
    tables.seats[2 * SEAT_WORDS..].copy_from_slice(&[5, 2, 0, 0]);
    assert!(!tables.are_sound());
    tables.nodes[WRITERS] = 2;
    assert!(tables.are_sound());
}

#[test]
fn a_node_of_kind_1_is_damage_wherever_it_stands() {
    let with = |claims: &[(u32, [u32; NODE_WORDS])]| {
        let mut tables = full_sheet();
        tables.nodes.extend([0; NODE_WORDS]);
        for (node, words) in claims {
            tables.nodes[place(*node, START)..][..NODE_WORDS].copy_from_slice(words);
        }
        tables.put_counts();
        tables
    };
    assert!(with(&[]).are_sound() && with(&[(3, [5, 6, 2, 0, 0])]).are_sound());
    for (name, tables) in [
        ("listed and held", with(&[(1, [0, 20, 1, 0, 0])])),
        ("off the list, of a seat that waits", with(&[(2, [10, 20, 1, 0, 0])])),
        ("nobody's", with(&[(3, [5, 6, 1, 0, 0])])),
        ("nobody's, and marked", with(&[(3, [5, 6, 1, 0, 1])])),
        ("nobody's, with a next", with(&[(3, [5, 6, 1, 1, 0])])),
        ("listed alone", with(&[(1, [0, 20, 2, 3, 0]), (3, [5, 6, 1, 0, 0])])),
    ] {
        assert!(Tables { profile: Ordinary, ..tables.clone() }.are_sound(), "{name}");
        refused_by_every_call(name, &tables);
    }
}

#[test]
fn a_count_of_readers_is_damage() {
    let mut tables = full_sheet();
    for counts in [[1, 1], [1, 0], [0, 0], [0, 2], [u32::MAX, 1]] {
        [tables.nodes[READERS], tables.nodes[WRITERS]] = counts;
        refused_by_every_call(&format!("{counts:?}"), &tables);
    }
    [tables.nodes[READERS], tables.nodes[WRITERS]] = [0, 1];
    assert!(tables.are_sound());
}

#[test]
fn what_is_damage_on_a_sheet_alone_is_sound_where_there_are_readers() {
    let mut random = Random::new(41);
    for damage in SHEET_DAMAGES.iter().cycle().take(50 * SHEET_DAMAGES.len()) {
        let tables = damaged(&mut random, Sheet, damage);
        assert!(!tables.are_sound(), "{}", damage.0);
        assert!(Tables { profile: Ordinary, ..tables }.are_sound(), "{}", damage.0);
    }
}

/// Seat 1 is linked by an ordinary step: it validates, and the tables are no sheet until it holds.
#[test]
fn the_two_sets_of_calls_on_the_same_tables() {
    let mut tables = sheet(4, 2, 100);
    hold(&mut tables, 0, 10, 20);
    enter(&mut tables, 1, 0, 5);
    let mut ordinary = Tables { profile: Ordinary, ..tables.clone() };
    assert_eq!((ordinary.step(1), words_of(&ordinary, 1)[PHASE]), (ON, 3));
    refused_by_every_call("validating", &Tables { profile: Sheet, ..ordinary.clone() });
    assert_eq!((ordinary.step(1), tables.step(1)), (HELD, HELD));
    assert_eq!((ordinary.nodes, ordinary.seats), (tables.nodes, tables.seats));
}

#[test]
fn free_count_and_board_of_a_sheet() {
    let mut tables = sheet(6, 4, 100);
    hold(&mut tables, 3, 50, 60);
    hold(&mut tables, 1, 10, 30);
    enter(&mut tables, 0, 20, 25);
    tables.reserve(2, 70, 80, 2).unwrap();
    assert_eq!(tables.free_count(), Ok(2));
    let mut rows = [9; 10];
    assert_eq!(tables.board(&mut rows), Ok((2, 30)));
    assert_eq!(rows, [1, 10, 30, 2, 3, 50, 60, 2, 9, 9]);
    tables.release(3).unwrap();
    assert_eq!((tables.free_count(), tables.board(&mut rows)), (Ok(2), Ok((1, 20))));
    assert_eq!(rows, [1, 10, 30, 2, 3, 50, 60, 2, 9, 9]);
}

/// Three nodes, all listed: of the marked ones the first is taken, once both are out.
#[test]
fn reserve_takes_marked_nodes_out() {
    let mut tables = sheet(3, 3, 100);
    for (seat, start) in [(0, 20), (1, 10), (2, 0)] {
        hold(&mut tables, seat, start, start + 5);
    }
    assert_eq!(tables.reserve(0, 0, 5, 2), Err(5));
    assert_eq!([0, 2].map(|seat| tables.release(seat)), [OUT, OUT]);
    assert_eq!(tables.listed().collect::<Vec<u32>>(), [3, 2, 1]);
    assert_eq!(tables.reserve(0, 30, 35, 2), Ok(Answer::Node(1)));
    assert_eq!((tables.listed().collect::<Vec<u32>>(), node_words(&tables, 1)), (vec![2], &[30, 35, 2, 0, 0][..]));
    assert_eq!(tables.free_count(), Ok(1));
}

#[test]
fn a_run_is_its_steps_on_a_sheet_too() {
    let mut tables = sheet(4, 3, 100);
    tables.reserve(0, 10, 20, 2).unwrap();
    tables.reserve(1, 15, 25, 2).unwrap();
    assert_eq!(tables.run(&[0, 1, 0, 1, 1, 1], 9), (6, 0));
    assert_eq!([0, 1].map(|seat| words_of(&tables, seat)), [&[5, 1, 0, 0][..], &[2, 2, 0, 1][..]]);
    assert_eq!(tables.run(&[0, 1, 2, 0], 9), (2, 6));
    assert_eq!(tables.run(&[0, 3], 9), (1, 2));
    tables.release(0).unwrap();
    assert_eq!(tables.run(&[1, 1, 1, 1], 2), (2, 0));
    assert_eq!(tables.run(&[1, 1, 1, 1], 9), (4, 0));
    assert_eq!((words_of(&tables, 1), counts_kept(&tables.nodes)), (&[5, 2, 0, 0][..], [0, 1]));
    tables.nodes[READERS] = 1;
    assert_eq!(tables.run(&[], 0), (0, 1));
}

/// Seat 0's own node stands on the list as its prev: a step from 1 to 5 links it to itself.
#[test]
fn a_step_that_holds_can_damage_sheets_that_were_never_reached() {
    let mut tables = sheet(1, 1, 1);
    tables.nodes[HEAD] = 1;
    for (field, value) in [(START, 0), (END, 1), (KIND, 2)] {
        tables.nodes[place(1, field)] = value;
    }
    tables.seats.copy_from_slice(&[1, 1, 1, 0]);
    assert_eq!(tables.clone().run(&[0, 0], 9), (1, 1));
    assert_eq!(tables.clone().run(&[0], 9), (1, 0));
    assert_eq!((tables.step(0), word(&tables.nodes, 1, NEXT), words_of(&tables, 0)), (HELD, 1, &[5, 1, 0, 0][..]));
    refused_by_every_call("a list that never ends", &tables);
}

#[test]
fn no_step_is_refused_8_or_goes_back() {
    let mut random = Random::new(42);
    let families = [any_words, sound_words, many_waiters, many_reserved, many_walkers, full_lists];
    let mut stepped = [0; 8];
    for turn in 0..60_000 {
        let mut tables = families[turn % families.len()](&mut random, Sheet);
        let seat = random.below(tables.seat_count() + 1);
        let phase = tables.seat(seat).map_or(0, |words| words[PHASE]);
        match tables.step(seat) {
            Err(refusal) => assert!([1, 2, 6].contains(&refusal), "{refusal}"),
            Ok(answer) => {
                assert!(!matches!(answer, Answer::Back | Answer::Out | Answer::Node(_)), "{answer:?}");
                stepped[phase as usize] += 1;
            }
        }
    }
    for (phase, times) in stepped.into_iter().enumerate() {
        assert!(if [1, 2, 5, 7].contains(&phase) { times >= 1000 } else { times == 0 }, "{phase}: {times}");
    }
}

// Reached sheets

/// "Prove exclusion [...] and that a step is never refused 8", and what sound shape allows: looked at in one table.
fn assert_reached(tables: &Tables) {
    assert!(tables.are_sound(), "{tables:?}");
    let holders: Vec<&[u32]> = tables.seats.chunks(SEAT_WORDS).filter(|seat| seat[PHASE] == 5).collect();
    assert_eq!(counts_kept(&tables.nodes), [0, holders.len() as u32], "{tables:?}");
    assert!(tables.seats.chunks(SEAT_WORDS).all(|seat| [0, 1, 2, 5, 7].contains(&seat[PHASE])), "{tables:?}");
    let run = |node: u32| word(&tables.nodes, node, START)..word(&tables.nodes, node, END);
    for (at, one) in holders.iter().enumerate() {
        for other in &holders[at + 1..] {
            let (one, other) = (run(one[OWN]), run(other[OWN]));
            assert!(one.end <= other.start || other.end <= one.start, "{tables:?}");
        }
    }
    let unmarked: Vec<u32> = tables.listed().filter(|&node| word(&tables.nodes, node, MARK) == 0).collect();
    let ordered = unmarked.windows(2).all(|two| run(two[0]).end <= run(two[1]).start);
    assert!(ordered, "unmarked claims on the list lie apart and rise: {tables:?}");
}

/// "A solo bound of 4·N + 8 steps from phase 1, 2 or 7": then the seat holds, or waits for an unmarked claim that shares
/// frames.
fn assert_settles(tables: &Tables, seat: u32) -> bool {
    let node_count = (tables.nodes.len() - WORDS_BEFORE_NODES) / NODE_WORDS;
    let mut alone = tables.clone();
    let steps = 4 * node_count + 8;
    assert_eq!(alone.run(&vec![seat; steps], u32::MAX), (steps as u32, 0));
    match alone.step(seat) {
        HELD => true,
        Ok(Answer::Wait { node, first, end }) => {
            assert!(word(&alone.nodes, node, MARK) == 0 && first < end, "{alone:?}");
            false
        }
        answer => panic!("{answer:?} of seat {seat} after {steps} steps in {tables:?}"),
    }
}

type CallOfSeat = fn(&mut Tables, u32) -> Result<Answer, u32>;

/// The calls that can change a sheet, with the claims of a title of two frames.
const CALLS: [CallOfSeat; 6] = [
    |tables, seat| tables.reserve(seat, 0, 1, 2),
    |tables, seat| tables.reserve(seat, 1, 2, 2),
    |tables, seat| tables.reserve(seat, 0, 2, 2),
    Tables::enter,
    Tables::step,
    Tables::release,
];

/// The sheets that one call leads to.
fn after_each_call(tables: &Tables) -> Vec<Tables> {
    let after = |(seat, call): (u32, CallOfSeat)| {
        let mut then = tables.clone();
        call(&mut then, seat).ok().map(|_| then)
    };
    (0..tables.seat_count()).flat_map(|seat| CALLS.map(|call| (seat, call))).filter_map(after).collect()
}

/// Every sheet of so many nodes and seats that any calls reach in a title of two frames, and how many there are; of the
/// seats on them, how many wait when they are stepped alone, and how many hold.
fn look_at_every_reached_sheet(nodes: u32, seats: u32) -> (usize, [u32; 2]) {
    let mut seen = HashSet::new();
    let mut left = vec![sheet(nodes, seats, 2)];
    let mut settled = [0, 0];
    while let Some(tables) = left.pop() {
        if !seen.insert((tables.nodes.clone(), tables.seats.clone())) {
            continue;
        }
        assert_reached(&tables);
        for seat in (0..seats).filter(|&seat| [1, 2, 7].contains(&words_of(&tables, seat)[PHASE])) {
            settled[usize::from(assert_settles(&tables, seat))] += 1;
        }
        left.extend(after_each_call(&tables));
    }
    (seen.len(), settled)
}

#[test]
fn every_reached_sheet_of_a_few_nodes_and_seats() {
    assert_eq!(look_at_every_reached_sheet(2, 2), (505, [112, 378]));
    assert_eq!(look_at_every_reached_sheet(3, 2), (10_165, [2_080, 11_292]));
    assert_eq!(look_at_every_reached_sheet(2, 3), (1_068, [336, 825]));
    assert_eq!(look_at_every_reached_sheet(3, 3), (37_137, [19_272, 40_245]));
}

/// Longer histories on sheets of any size.
#[test]
fn along_generated_histories_holders_are_apart_and_every_seat_settles() {
    let mut random = Random::new(43);
    let mut settled = [0, 0];
    let mut from_phase = [0; 8];
    let mut most_holders = 0;
    for _ in 0..60 {
        let history = some_rows(&mut random, &[Sheet]);
        let mut tables = sheet(history.nodes, history.seats, history.title);
        for (_, row) in history.rows.into_iter().take(500) {
            // refused or not
            let _ = tables.call(row);
            assert_reached(&tables);
            most_holders = tables.nodes[WRITERS].max(most_holders);
            let phase = tables.seat(row[1]).map_or(0, |words| words[PHASE]);
            if [1, 2, 7].contains(&phase) && random.percent(10) {
                settled[usize::from(assert_settles(&tables, row[1]))] += 1;
                from_phase[phase as usize] += 1;
            }
        }
    }
    assert!(settled.iter().all(|&times| times >= 100), "{settled:?}");
    assert!(
        [1, 2, 7].iter().all(|&phase| from_phase[phase] >= 20) && most_holders >= 30,
        "{from_phase:?} {most_holders}"
    );
}

// What is compared

/// On tables that calls of both profiles have made, those of a sheet find some damaged, the ordinary ones none.
#[test]
fn where_the_profiles_take_turns_both_have_calls_that_are_taken() {
    let mut random = Random::new(44);
    let mut taken = [0, 0];
    let mut damaged = [0, 0];
    for _ in 0..60 {
        let history = some_rows(&mut random, &PROFILES);
        let mut tables = Tables::fresh(Ordinary, history.nodes, history.seats, history.title);
        for (profile, row) in history.rows {
            tables.profile = profile;
            let answer = tables.call(row);
            taken[profile as usize] += u32::from(answer.is_ok());
            damaged[profile as usize] += u32::from(answer == Err(1));
        }
    }
    assert!(
        taken.iter().all(|&times| times >= 2_000) && damaged[0] == 0 && damaged[1] >= 2_000,
        "{taken:?} {damaged:?}"
    );
}

/// Whether a name that a tally has where there are readers is one of a sheet's too.
fn of_a_sheet(name: &str) -> bool {
    !["phase 3", "phase 4", "phase 6", "reader"].iter().any(|of_readers| name.contains(of_readers))
}

/// The rules of a step on a sheet, and what a reserve of kind 1 can meet there.
const RULES: [&str; 15] = [
    "step: begins to wait in phase 2",
    "step: waits on in phase 2",
    "step: wait in phase 2 is over",
    "step: insert that links and holds",
    "step: insert that finds another link",
    "step: restart behind a marked prev",
    "step: pass while walking",
    "step: unlink while walking",
    "step: of a holder",
    "step: enters in phase 7",
    "reserve: kind 1 on a sheet, and nothing else is wrong",
    "reserve: kind 1 on a sheet, and empty",
    "reserve: kind 1 on a sheet, and beyond the title",
    "reserve: kind 1 on a sheet, by a seat that has a claim",
    "reserve: kind 1 on a sheet, where no node is free",
];

#[test]
fn the_histories_of_sheets_reach_every_rule() {
    let mut random = Random::new(1);
    let mut tally = Tally::new(Sheet);
    (0..300).for_each(|_| tally.count_history(&mut random));
    let others = [
        "reserve",
        "enter",
        "fetch that takes marked nodes out",
        "a list longer than 30",
        "release of a writer",
        "board: two holders or more",
        "board: first frames not rising by seat",
        "board: ends that touch",
        "board: a gap between holders",
        "board: gaps between holders, two or more",
    ];
    let waits = WAITS.iter().filter(|name| of_a_sheet(name));
    let entries = ENTRIES.iter().filter(|name| of_a_sheet(name));
    for name in RULES.iter().chain(&others).chain(&RESERVES).chain(&TITLES).chain(waits).chain(entries) {
        assert!(tally.of(name) >= 10, "{name}");
    }
    let refusals = ["2 of enter", "14 of enter", "2 of step", "6 of step", "2 of release", "7 of release"];
    let of_reserve = [2, 3, 11, 4, 5, 8].map(|number| format!("{number} of reserve"));
    for refusal in of_reserve.iter().map(String::as_str).chain(refusals) {
        assert!(tally.of(&format!("refusal {refusal}")) >= 10, "{refusal}");
    }
    assert!(tally.most("the most writers holding at once") >= 30);
    let never = [
        "step: insert that links",
        "step: hold of a writer",
        "step: hold of a reader",
        "step: withdrawal",
        "release of a reader",
        "refusal 8 of step",
        "refusal 1 of reserve",
        "refusal 1 of enter",
        "refusal 1 of step",
        "refusal 1 of release",
        "board: holders that share a frame",
        "board: holders of the same run",
        "board: a holder inside another",
    ];
    for name in never.iter().chain(&WAITS_NEVER_REACHED).chain(&ENTRIES_NEVER_REACHED) {
        assert_eq!(tally.of(name), 0, "{name}");
    }
    assert_eq!(tally.most("the most readers holding at once"), 0);
}

#[test]
fn the_sheets_of_a_seed_meet_every_answer_refusal_and_clause() {
    let tally = tally_of_rounds(Sheet, 100);
    let answers = [
        "answer of clear",
        "answer of reserve: node",
        "answer of enter: on",
        "answer of step: on",
        "answer of step: wait",
        "answer of step: held",
        "answer of release: out",
        "run: a step in phase 7",
        "answer of run: no step",
        "answer of run: to its end or its budget",
        "answer of run: refusal 1 behind a step",
        "answer of run: refusal 2 behind a step",
        "answer of run: refusal 6 behind a step",
        "answer of board",
        "answer of free count",
    ];
    let refusals = [
        ("clear", &[1, 3][..]),
        ("reserve", &[1, 2, 3, 11, 4, 5, 8]),
        ("enter", &[1, 2, 14]),
        ("step", &[1, 2, 6]),
        ("release", &[1, 2, 7]),
        ("run", &[1, 2, 6]),
        ("board", &[1, 9]),
        ("free count", &[1]),
    ];
    let waits = WAITS.iter().chain(&WAITS_NEVER_REACHED).filter(|name| of_a_sheet(name));
    let entries = ENTRIES.iter().chain(&ENTRIES_NEVER_REACHED).filter(|name| of_a_sheet(name));
    for name in RULES.iter().chain(&answers).chain(&RESERVES).chain(&TITLES).chain(waits).chain(entries) {
        assert!(tally.of(name) >= 10, "{name}");
    }
    for (call, numbers) in refusals {
        for number in 1..=20 {
            let times = tally.of(&format!("refusal {number} of {call}"));
            assert!(if numbers.contains(&number) { times >= 10 } else { times == 0 }, "{number} of {call}: {times}");
        }
    }
    assert_eq!(tally.of("answer of step: back"), 0);
    assert_eq!(tally.most("the most readers holding at once"), 0);
}
