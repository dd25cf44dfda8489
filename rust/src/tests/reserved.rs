//! A node reserved when the worker connects: 02's reserve and enter apart, phase 7 and its place among the others, and how many
//! steps a seat makes by itself.

use crate::generate::good;
use crate::machine::Answer;
use crate::machine::Profile::Ordinary;
use crate::random::Random;
use crate::script::{play, read_script};
use crate::tables::{many_reserved, many_waiters, sound_words, Tables};
use crate::tests::layout::{place, word, CUR, END, HEAD, KIND, MARK, NEXT, OWN, PHASE, PREV, SEAT_WORDS, START};
use crate::tests::layout::{NODE_WORDS, WORDS_BEFORE_NODES};
use crate::tests::{refused_by_every_call, script_of, LONGEST_TITLE};

const REFUSED_NOT_RESERVED: Result<Answer, u32> = Err(14);

fn words_of(seats: &[u32], seat: u32) -> [u32; 4] {
    seats[SEAT_WORDS * seat as usize..][..SEAT_WORDS].try_into().expect("a seat has four words")
}

/// Seat 0 writes 10..20 and holds node 1.
fn seat_0_holds(nodes: u32, seats: u32) -> Tables {
    let mut tables = Tables::fresh(Ordinary, nodes, seats, 100);
    tables.reserve(0, 10, 20, 2).unwrap();
    tables.enter(0).unwrap();
    assert_eq!([0; 2].map(|seat| tables.step(seat)), [Ok(Answer::On), Ok(Answer::Held)]);
    tables
}

#[test]
fn reserve_takes_a_node_and_reads_no_head() {
    let mut tables = seat_0_holds(4, 3);
    let mut then = tables.nodes.clone();
    then[place(2, START)..][..NODE_WORDS].copy_from_slice(&[15, 25, 1, 0, 0]);
    assert_eq!(tables.reserve(2, 15, 25, 1), Ok(Answer::Node(2)));
    assert_eq!((&tables.nodes, words_of(&tables.seats, 2)), (&then, [7, 2, 0, 0]));
    assert_eq!((words_of(&tables.seats, 0), words_of(&tables.seats, 1)), ([5, 1, 0, 0], [0; 4]));
}

#[test]
fn enter_reads_the_head_as_it_is_then() {
    let mut tables = Tables::fresh(Ordinary, 4, 3, 100);
    tables.reserve(1, 50, 60, 2).unwrap();
    tables.reserve(2, 70, 80, 2).unwrap();
    assert_eq!((tables.enter(2), words_of(&tables.seats, 2)), (Ok(Answer::On), [1, 2, 0, 0]));
    assert_eq!(tables.step(2), Ok(Answer::On));
    let before = tables.nodes.clone();
    assert_eq!((tables.enter(1), words_of(&tables.seats, 1)), (Ok(Answer::On), [1, 1, 0, 2]));
    assert_eq!((tables.nodes[HEAD], &tables.nodes), (2, &before));
}

/// Enter, clause by clause: refusals 2 and 14 in this order, and the seat's words afterwards.
fn entered(tables: &Tables, seat: u32) -> Result<Vec<u32>, u32> {
    let at = SEAT_WORDS * seat as usize;
    if at >= tables.seats.len() {
        return Err(2);
    }
    if tables.seats[at + PHASE] != 7 {
        return Err(14);
    }
    let mut after = tables.seats.clone();
    after[at + PHASE] = 1;
    after[at + CUR] = tables.nodes[HEAD];
    Ok(after)
}

#[test]
fn enter_is_what_the_request_says_on_any_sound_tables() {
    let mut random = Random::new(30);
    let mut accepted = [0, 0];
    let mut refused = [0; 7];
    for turn in 0..20_000 {
        let tables = [sound_words, many_waiters, many_reserved][turn % 3](&mut random, Ordinary);
        let seat = random.below(tables.seat_count() + 1);
        let mut after = tables.seats.clone();
        let answer = Ordinary.enter(&tables.nodes, &mut after, seat);
        match entered(&tables, seat) {
            Ok(seats) => {
                assert_eq!((answer, &after), (Ok(Answer::On), &seats), "{tables:?} {seat}");
                accepted[usize::from(tables.nodes[HEAD] != 0)] += 1;
            }
            Err(refusal) => {
                assert_eq!((answer, &after), (Err(refusal), &tables.seats), "{tables:?} {seat}");
                if refusal == 14 {
                    refused[words_of(&tables.seats, seat)[PHASE] as usize] += 1;
                }
            }
        }
    }
    assert!(accepted.iter().chain(&refused).all(|&times| times >= 200), "{accepted:?} {refused:?}");
}

#[test]
fn a_step_in_phase_7_is_enter() {
    let mut random = Random::new(31);
    let mut entered = 0;
    for _ in 0..5_000 {
        let tables = many_reserved(&mut random, Ordinary);
        let seat = random.below(tables.seat_count());
        if words_of(&tables.seats, seat)[PHASE] != 7 {
            continue;
        }
        let (mut by_step, mut by_run, mut by_enter) = (tables.clone(), tables.clone(), tables);
        assert_eq!(by_step.step(seat), Ok(Answer::On));
        assert_eq!(by_run.run(&[seat], 1), (1, 0));
        assert_eq!(by_enter.enter(seat), Ok(Answer::On));
        assert_eq!((&by_step, &by_run), (&by_enter, &by_enter));
        entered += 1;
    }
    assert!(entered >= 2_000, "{entered}");
}

#[test]
fn in_any_phase_but_7_enter_is_refused_14_and_never_6_or_7() {
    let mut tables = seat_0_holds(8, 3);
    let refused = |tables: &Tables, seat, phase| {
        let mut after = tables.clone();
        assert_eq!(after.enter(seat), REFUSED_NOT_RESERVED, "phase {phase}");
        assert_eq!((words_of(&tables.seats, seat)[PHASE], &after), (phase, tables));
    };
    refused(&tables, 0, 5);
    refused(&tables, 1, 0);
    tables.reserve(1, 15, 25, 1).unwrap();
    tables.enter(1).unwrap();
    refused(&tables, 1, 1);
    tables.step(1).unwrap();
    refused(&tables, 1, 2);
    tables.release(0).unwrap();
    for phase in [1, 1, 3] {
        tables.step(1).unwrap();
        refused(&tables, 1, phase);
    }
    for phase in [4, 6] {
        let prev_and_cur = if phase == 4 { 1 } else { 0 };
        tables.seats[SEAT_WORDS..][..SEAT_WORDS].copy_from_slice(&[phase, 2, prev_and_cur, prev_and_cur]);
        refused(&tables, 1, phase);
    }
    assert_eq!(tables.enter(3), Err(2));
    tables.nodes[HEAD] = 9;
    assert_eq!([1, 2, 3].map(|seat| tables.enter(seat)), [Err(1); 3]);
}

#[test]
fn a_reserved_seat_is_not_idle_and_does_not_hold() {
    let mut tables = seat_0_holds(4, 2);
    tables.reserve(1, 15, 25, 2).unwrap();
    let before = tables.clone();
    assert_eq!(tables.reserve(1, 15, 25, 2), Err(5));
    assert_eq!(tables.release(1), Err(7));
    assert_eq!(tables, before);
}

#[test]
fn a_reserved_node_is_not_free() {
    let mut tables = Tables::fresh(Ordinary, 2, 3, 100);
    assert_eq!(tables.reserve(2, 0, 10, 2), Ok(Answer::Node(1)));
    assert_eq!(tables.free_count(), Ok(1));
    assert_eq!(tables.reserve(0, 0, 10, 2), Ok(Answer::Node(2)));
    assert_eq!((tables.free_count(), tables.reserve(1, 0, 10, 2)), (Ok(0), Err(8)));
}

/// Seat 3 of H9 goes back, fetches its node again, and enters: each of these is a step, and none of them reads the head before
/// its time.
#[test]
fn phase_6_goes_to_7_and_7_to_1() {
    let mut tables = Tables::fresh(Ordinary, 8, 1, 20);
    for (field, value) in [(START, 15), (END, 20), (KIND, 2), (MARK, 1), (NEXT, 0)] {
        tables.nodes[place(4, field)] = value;
    }
    for (field, value) in [(START, 0), (END, 9), (KIND, 1)] {
        tables.nodes[place(2, field)] = value;
    }
    tables.nodes[HEAD] = 2;
    tables.seats.copy_from_slice(&[6, 4, 0, 0]);
    assert_eq!((tables.step(0), words_of(&tables.seats, 0)), (Ok(Answer::On), [7, 1, 0, 0]));
    let claim = [START, END, KIND, NEXT, MARK].map(|field| word(&tables.nodes, 1, field));
    assert_eq!((claim, word(&tables.nodes, 4, MARK), tables.nodes[HEAD]), ([15, 20, 2, 0, 0], 1, 2));
    assert_eq!((tables.step(0), words_of(&tables.seats, 0)), (Ok(Answer::On), [1, 1, 0, 2]));
    assert_eq!((tables.step(0), words_of(&tables.seats, 0)), (Ok(Answer::On), [1, 1, 2, 0]));
}

#[test]
fn phase_7_has_a_node_of_its_own_and_neither_prev_nor_cur_and_there_is_no_phase_8() {
    let mut tables = seat_0_holds(4, 2);
    for (words, sound) in [
        ([7, 1, 0, 0], true),
        ([7, 0, 0, 0], false),
        ([7, 1, 1, 0], false),
        ([7, 1, 0, 1], false),
        ([7, 1, 1, 1], false),
        ([7, 2, 0, 0], false),
        ([7, 5, 0, 0], false),
        ([8, 1, 0, 0], false),
        ([8, 0, 0, 0], false),
        ([14, 1, 0, 0], false),
    ] {
        tables.seats[SEAT_WORDS..].copy_from_slice(&words);
        if sound {
            assert_eq!(tables.free_count(), Ok(3), "{words:?}");
        } else {
            refused_by_every_call(&format!("{words:?}"), &tables);
        }
    }
}

/// Three workers connect in one order and come in in another: nodes go by the first, places on the list by the second.
#[test]
fn workers_that_reserve_first_enter_in_any_order() {
    let reserves = "v 0 0 10 1; v 1 0 10 1; v 2 0 10 1";
    let enters = "e 2; s 2; s 2; e 0; s 0; s 0; s 0; e 1; s 1; s 1; s 1; s 1";
    let printed = play(script_of(3, 3, &format!("{reserves}; {enters}")).as_bytes());
    assert!(printed.ends_with("14 on\n15 held\nlist 3 1 2\nhold 0 0 10 1\nhold 1 0 10 1\nhold 2 0 10 1\ncovered 10\n"));
    assert!(printed.starts_with("1 node 1\n2 node 2\n3 node 3\n4 on\n5 on\n6 held\n7 on\n"));
}

/// 02: "Demand 3's number becomes 6·N + 10". In tables reached from fresh ones, a seat that steps by itself that often holds,
/// waits for an unmarked claim, or is refused 8, and its next step changes nothing.
#[test]
fn so_many_steps_of_one_seat_settle_it() {
    let mut random = Random::new(32);
    let mut settled = [0, 0, 0];
    let mut from_phase = [0; 8];
    for _ in 0..60 {
        let script = read_script(&good(&mut random)).expect("a good script");
        let mut tables = Tables::fresh(Ordinary, script.nodes, script.seats, script.title);
        for &row in &script.rows[..script.count.min(500) as usize] {
            // refused or not
            let _ = tables.call(row);
            let phase = tables.seats.get(SEAT_WORDS * row[1] as usize + PHASE).copied().unwrap_or(0);
            if phase == 0 || ![4, 6].contains(&phase) && random.percent(95) {
                continue;
            }
            from_phase[phase as usize] += 1;
            let mut alone = tables.clone();
            let node_count = (tables.nodes.len() - WORDS_BEFORE_NODES) / NODE_WORDS;
            let entries = vec![row[1]; 6 * node_count + 10];
            alone.run(&entries, u32::MAX);
            let before = alone.clone();
            settled[match alone.step(row[1]) {
                Ok(Answer::Held) => 0,
                Ok(Answer::Wait { node, first, end }) => {
                    assert!(word(&alone.nodes, node, MARK) == 0 && first < end);
                    1
                }
                Err(8) => 2,
                answer => panic!("{answer:?} after {} steps", entries.len()),
            }] += 1;
            assert_eq!(alone, before);
        }
    }
    assert!(settled[..2].iter().all(|&times| times >= 100), "{settled:?}");
    assert!(from_phase[1..].iter().all(|&times| times >= 5), "{from_phase:?}");
}

#[test]
fn prev_and_cur_are_0_while_a_seat_is_reserved_along_generated_scripts() {
    let mut random = Random::new(33);
    let mut reserved = 0;
    for _ in 0..50 {
        let script = read_script(&good(&mut random)).expect("a good script");
        let mut tables = Tables::fresh(Ordinary, script.nodes, script.seats, LONGEST_TITLE);
        for &row in &script.rows[..script.count as usize] {
            // refused or not
            let _ = tables.call(row);
            for seat in tables.seats.chunks_exact(SEAT_WORDS).filter(|seat| seat[PHASE] == 7) {
                assert_eq!((seat[PREV], seat[CUR], word(&tables.nodes, seat[OWN], MARK)), (0, 0, 0));
                assert_eq!(word(&tables.nodes, seat[OWN], NEXT), 0);
                reserved += 1;
            }
        }
    }
    assert!(reserved >= 1_000, "{reserved}");
}
