//! Which frames clash: the run that 02 lets `wait` carry, "the whole of what both claims cover", frame by frame and edge by
//! edge; along the histories, in any sound tables, as printed, and in the two words that a step is lent.

use crate::driver::{outcome, Call, Case};
use crate::generate::{good, of_waits};
use crate::library::{Printed, Shared};
use crate::library_of;
use crate::machine::Answer;
use crate::machine::Profile::Ordinary;
use crate::random::Random;
use crate::script::{play, read_script};
use crate::tables::{many_holders, many_waiters, sound_words, Tables};
use crate::tests::histories::{History, H1, H11, H2, H3, H4, H5, H6, H7, H8, H9, THEN_H10};
use crate::tests::layout::{place, word, CUR, END, HEAD, KIND, MARK, NEXT, OWN, PHASE, SEAT_WORDS, START};
use crate::tests::{script_of, LONGEST_TITLE};
use std::ops::Range;

type Run = Range<u32>;

/// Frame by frame: the first that both cover, and the one behind the last; what lies between is shared too.
fn counted(one: &Run, other: &Run) -> (u32, u32) {
    let shared: Vec<u32> = one.clone().filter(|frame| other.contains(frame)).collect();
    match (shared.first(), shared.last()) {
        (Some(&first), Some(&last)) => {
            assert_eq!(shared, (first..=last).collect::<Vec<u32>>());
            (first, last + 1)
        }
        _ => (0, 0),
    }
}

/// For runs of any length: a shared run starts where one of the two starts, and ends where one ends.
fn by_edges(one: &Run, other: &Run) -> (u32, u32) {
    let both_cover = |frame: &u32| one.contains(frame) && other.contains(frame);
    let first = [one.start, other.start].into_iter().find(both_cover);
    let end = [one.end, other.end].into_iter().find(|end| both_cover(&(end - 1)));
    assert_eq!(first.is_some(), end.is_some(), "{one:?} {other:?}");
    (first.unwrap_or(0), end.unwrap_or(0))
}

fn claim(nodes: &[u32], node: u32) -> Run {
    word(nodes, node, START)..word(nodes, node, END)
}

fn seat_words(tables: &Tables, seat: u32) -> &[u32] {
    &tables.seats[SEAT_WORDS * seat as usize..][..SEAT_WORDS]
}

/// Seat 0 is in this phase with its own node 2, at node 1, which alone is listed.
fn waiting_at((at, at_kind): (Run, u32), (own, own_kind): (Run, u32), phase: u32) -> Tables {
    let mut tables = Tables::fresh(Ordinary, 2, 1, LONGEST_TITLE);
    for (node, run, kind) in [(1, at, at_kind), (2, own, own_kind)] {
        for (field, value) in [(START, run.start), (END, run.end), (KIND, kind)] {
            tables.nodes[place(node, field)] = value;
        }
    }
    tables.nodes[HEAD] = 1;
    tables.seats.copy_from_slice(&[phase, 2, 0, 1]);
    tables
}

/// What the seat is told that waits so.
fn told(at: (Run, u32), own: (Run, u32), phase: u32) -> (u32, u32) {
    let mut tables = waiting_at(at, own, phase);
    match tables.step(0) {
        Ok(Answer::Wait { node: 1, first, end }) => (first, end),
        answer => panic!("{answer:?}"),
    }
}

#[test]
fn of_all_short_claims_of_every_kind_all_shared_frames_are_told_in_both_phases() {
    let runs: Vec<Run> = (0..6).flat_map(|start| (start + 1..=6).map(move |end| start..end)).collect();
    for at in &runs {
        for own in &runs {
            let shared = counted(at, own);
            assert_eq!(by_edges(at, own), shared);
            for kinds_and_phase in 0..8 {
                let kind = |bit: u32| 1 + (kinds_and_phase >> bit & 1);
                let phase = 2 * kind(2);
                let waits = told((at.clone(), kind(0)), (own.clone(), kind(1)), phase);
                assert_eq!(waits, shared, "{at:?} {}, {own:?} {}, phase {phase}", kind(0), kind(1));
            }
        }
    }
}

#[test]
fn claims_at_the_last_frames_and_over_all_of_them() {
    let most = LONGEST_TITLE;
    for (at, own, shared) in [
        (0..most, 0..most, (0, most)),
        (0..most, most - 1..most, (most - 1, most)),
        (most - 1..most, 0..most, (most - 1, most)),
        (0..most - 1, 1..most, (1, most - 1)),
        (0..1 << 31, (1 << 31) - 1..most, ((1 << 31) - 1, 1 << 31)),
        (0..1 << 31, 1 << 31..most, (0, 0)),
        (most - 2..most - 1, most - 1..most, (0, 0)),
        (most - 1..most, most - 2..most - 1, (0, 0)),
        (0..1, most - 1..most, (0, 0)),
    ] {
        for phase in [2, 4] {
            assert_eq!(told((at.clone(), 2), (own.clone(), 1), phase), shared, "{at:?} {own:?} {phase}");
        }
    }
}

/// Sound tables that nobody need have reached: two readers, a claim that shares nothing and one's own among those waited at.
#[test]
fn every_wait_names_the_whole_of_what_both_claims_cover_and_no_other_step_waits() {
    let mut random = Random::new(20);
    let mut found = [[0, 0], [0, 0]];
    for turn in 0..30_000 {
        let tables = [sound_words, many_holders, many_waiters][turn % 3](&mut random, Ordinary);
        let seat = random.below(tables.seat_count());
        let mut after = tables.clone();
        let answer = after.step(seat);
        let words = seat_words(&after, seat);
        let waits = answer.is_ok() && [2, 4].contains(&words[PHASE]);
        assert_eq!(matches!(answer, Ok(Answer::Wait { .. })), waits, "{tables:?} {seat}");
        if waits {
            let (first, end) = by_edges(&claim(&after.nodes, words[CUR]), &claim(&after.nodes, words[OWN]));
            assert_eq!(answer, Ok(Answer::Wait { node: words[CUR], first, end }), "{tables:?} {seat}");
            found[usize::from(words[PHASE] == 4)][usize::from(end == 0)] += 1;
        }
    }
    assert!(found.concat().iter().all(|&times| times >= 500), "{found:?}");
}

#[test]
fn a_seat_that_waits_at_its_own_node_is_told_its_own_claim() {
    for (phase, kind) in [(2, 1), (2, 2), (4, 1), (4, 2)] {
        let mut tables = waiting_at((0..1, 2), (15..20, kind), phase);
        tables.seats[CUR] = 2;
        assert_eq!(tables.step(0), Ok(Answer::Wait { node: 2, first: 15, end: 20 }), "{phase} {kind}");
    }
}

/// The lines of a history that tell of a wait, separated by `;`.
fn waits_of((nodes, seats, bodies): History) -> String {
    let printed = play(script_of(nodes, seats, bodies).as_bytes());
    printed.lines().filter(|line| line.contains("wait")).collect::<Vec<&str>>().join("; ")
}

#[test]
fn the_waits_of_the_histories() {
    assert_eq!(waits_of(H1), "7 wait 1 15 20");
    assert_eq!(waits_of(H3), "7 wait 1 19 20; 8 wait 1 19 20");
    assert_eq!(waits_of(H4), "12 wait 1 70 80");
    assert_eq!(waits_of(H8), "7 wait 1 0 10");
    assert_eq!(waits_of(H9), "20 wait 4 15 20");
    assert_eq!(waits_of((H9.0, H9.1, &format!("{}; {THEN_H10}", H9.2))), "20 wait 4 15 20; 29 wait 3 15 20");
    assert_eq!([H2, H5, H6, H7, H11].map(waits_of), [""; 5]);
}

/// H9 with two steps more of the reader that waits in phase 4, before the writer goes back.
#[test]
fn a_claim_that_waits_on_is_told_the_same_again_in_both_phases() {
    let phase_2 = "v 0 10 20 2; e 0; s 0; s 0; v 1 15 25 1; e 1; s 1; s 1; s 1; r 0; s 1";
    assert_eq!(waits_of((4, 4, phase_2)), "7 wait 1 15 20; 8 wait 1 15 20; 9 wait 1 15 20");
    let phase_4 = H9.2.replace("; s 3; s 3; s 2; s 2; s 2", "; s 2; s 2; s 3; s 3; s 2; s 2; s 2");
    assert_eq!(waits_of((H9.0, H9.1, &phase_4)), "20 wait 4 15 20; 21 wait 4 15 20; 22 wait 4 15 20");
}

/// A writer of 20..50 waits in turn at claims that it shares a part of, all of itself or all of the other with, or one frame.
#[test]
fn what_is_shared_follows_the_claim_that_is_waited_at() {
    let mut tables = Tables::fresh(Ordinary, 8, 2, 100);
    for (at, first, end) in
        [(10..30, 20, 30), (40..60, 40, 50), (10..60, 20, 50), (25..30, 25, 30), (0..21, 20, 21), (20..50, 20, 50)]
    {
        tables.reserve(0, at.start, at.end, 1).unwrap();
        tables.enter(0).unwrap();
        while tables.step(0).expect("the seat is under way") != Answer::Held {}
        tables.reserve(1, 20, 50, 2).unwrap();
        tables.enter(1).unwrap();
        let node = tables.seats[OWN];
        let mut answer = tables.step(1);
        while answer == Ok(Answer::On) {
            answer = tables.step(1);
        }
        assert_eq!(answer, Ok(Answer::Wait { node, first, end }), "{at:?}");
        tables.release(0).unwrap();
        while tables.step(1).expect("the seat is under way") != Answer::Held {}
        tables.release(1).unwrap();
    }
}

/// 02: "never empty in tables reached from a fresh one"; there one of the two writes.
#[test]
fn in_generated_scripts_each_wait_has_frames_and_a_writer() {
    let mut random = Random::new(21);
    let mut waits = [0, 0];
    for _ in 0..100 {
        let script = read_script(&good(&mut random)).expect("a good script");
        let mut tables = Tables::fresh(Ordinary, script.nodes, script.seats, script.title);
        for &row in &script.rows[..script.count as usize] {
            if let Ok(Answer::Wait { node, first, end }) = tables.call(row) {
                let words = &tables.seats[SEAT_WORDS * row[1] as usize..][..SEAT_WORDS];
                let (at, own) = (claim(&tables.nodes, node), claim(&tables.nodes, words[OWN]));
                assert!(first < end, "{at:?} {own:?}");
                assert_eq!((first, end), by_edges(&at, &own));
                assert!([node, words[OWN]].iter().any(|&node| word(&tables.nodes, node, KIND) == 2), "{at:?} {own:?}");
                waits[usize::from(words[PHASE] == 4)] += 1;
            }
        }
    }
    assert!(waits.iter().all(|&times| times >= 50), "{waits:?}");
}

/// The answer of a step, and what it leaves in the two words that it is lent.
fn lent_words(tables: Tables, seat: u32, found: Shared) -> (u64, Shared) {
    let after = outcome(&library_of!(crate::library), &Case { tables, call: Call::Step { seat, shared: found } });
    (after.answer, after.shared.words().try_into().expect("two words were lent"))
}

#[test]
fn the_two_words_are_written_with_wait() {
    for found in [[0, 0], [1, 2], [15, 20], [20, 15], [LONGEST_TITLE; 2]] {
        for phase in [2, 4] {
            let overlapping = waiting_at((10..20, 2), (15..25, 1), phase);
            assert_eq!(lent_words(overlapping, 0, found), (4 << 32 | 1, [15, 20]));
            let apart = waiting_at((10..20, 2), (20..25, 1), phase);
            assert_eq!(lent_words(apart, 0, found), (4 << 32 | 1, [0, 0]));
        }
    }
}

#[test]
fn with_every_other_answer_and_refusal_the_two_words_stay() {
    let unlisted = |mut tables: Tables| {
        tables.nodes[HEAD] = 0;
        tables
    };
    let marked = |mut tables: Tables, node| {
        tables.nodes[place(node, MARK)] = 1;
        tables
    };
    let in_phase = |phase, prev, cur, kind| {
        let mut tables = waiting_at((10..20, 2), (15..25, kind), 1);
        tables.seats.copy_from_slice(&[phase, 2, prev, cur]);
        tables
    };
    let full = {
        let mut tables = in_phase(6, 0, 0, 2);
        tables.nodes[place(1, NEXT)] = 2;
        tables.seats.extend([1, 1, 0, 2]);
        tables
    };
    let (on, held, back) = (3 << 32, 5 << 32, 6 << 32);
    for (answer, tables, seat) in [
        (on, marked(in_phase(1, 0, 1, 2), 1), 0),
        (on, marked(in_phase(2, 0, 1, 2), 1), 0),
        (on, marked(in_phase(4, 0, 1, 1), 1), 0),
        (on, unlisted(in_phase(1, 0, 0, 2)), 0),
        (on, in_phase(6, 0, 0, 2), 0),
        (on, in_phase(7, 0, 0, 2), 0),
        (held, in_phase(3, 0, 2, 2), 0),
        (held, in_phase(3, 0, 0, 1), 0),
        (back, in_phase(3, 0, 1, 2), 0),
        (1, in_phase(7, 0, 1, 2), 0),
        (1, in_phase(8, 0, 0, 2), 0),
        (2, in_phase(2, 0, 1, 2), 1),
        (6, Tables::fresh(Ordinary, 2, 1, 9), 0),
        (8, full, 0),
    ] {
        for found in [[0, 0], [1, 2], [LONGEST_TITLE; 2]] {
            assert_eq!(lent_words(tables.clone(), seat, found), (answer, found), "{tables:?}");
        }
    }
}

/// 02's longer lines need more room than 32,768 bytes, and never more than there is.
#[test]
fn scripts_of_waits_print_more_than_32768_bytes() {
    let mut random = Random::new(22);
    for _ in 0..30 {
        let printed = play(&of_waits(&mut random)).len();
        assert!((32_769..=48_986).contains(&printed), "{printed}");
    }
    assert!(48_986 <= std::mem::size_of::<Printed>());
}
