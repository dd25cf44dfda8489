//! Covered frames as 02 has them, "the number of frames that at least one holder covers": small boards, and counts frame by
//! frame.

use crate::machine::Profile::Ordinary;
use crate::machine::{Answer, END, HOLDING, KIND, MARK, MOST_SEATS, OWN, PHASE, ROW_WORDS, START};
use crate::random::Random;
use crate::tables::{many_holders, Tables};
use crate::tests::layout::{word, SEAT_WORDS};
use crate::tests::LONGEST_TITLE;
use std::ops::Range;

/// The covered frames of any sound tables.
fn covered(tables: &Tables) -> u64 {
    tables.board(&mut [0; ROW_WORDS * MOST_SEATS]).expect("sound tables, and rows enough").1
}

/// The frames covered once each seat in turn has claimed its run for reading and holds it: readers keep nobody out.
fn covered_by_readers(runs: &[Range<u32>]) -> u64 {
    let mut tables = Tables::fresh(Ordinary, runs.len() as u32, runs.len() as u32, LONGEST_TITLE);
    for (seat, run) in (0..).zip(runs) {
        tables.reserve(seat, run.start, run.end, 1).expect("a node is free");
        tables.enter(seat).expect("it has reserved");
        while tables.step(seat).expect("the seat is under way") != Answer::Held {}
    }
    covered(&tables)
}

#[test]
fn the_example_of_the_request() {
    assert_eq!(covered_by_readers(&[0..100, 50..60]), 100);
}

#[test]
fn readers_of_all_frames_cover_as_many_as_there_are() {
    assert_eq!(covered_by_readers(&[0..4_294_967_295, 0..4_294_967_295]), 4_294_967_295);
    assert_eq!(covered_by_readers(&[0..4_294_967_294, 4_294_967_294..4_294_967_295]), 4_294_967_295);
    assert_eq!(covered_by_readers(&[4_294_967_294..4_294_967_295, 0..1]), 2);
}

#[test]
fn ends_that_touch_share_no_frame_and_leave_none_out() {
    assert_eq!(covered_by_readers(&[10..20, 20..30]), 20);
    assert_eq!(covered_by_readers(&[10..20, 20..30, 30..31]), 21);
    assert_eq!(covered_by_readers(&[10..20, 19..30]), 20);
    assert_eq!(covered_by_readers(&[10..20, 21..30]), 19);
}

#[test]
fn a_gap_is_not_covered() {
    assert_eq!(covered_by_readers(&[0..10, 20..30]), 20);
    assert_eq!(covered_by_readers(&[0..10, 20..30, 40..50]), 30);
    assert_eq!(covered_by_readers(&[0..10, 20..30, 25..35, 40..50]), 35);
}

#[test]
fn a_run_inside_another_adds_nothing() {
    assert_eq!(covered_by_readers(&[0..100, 0..10]), 100);
    assert_eq!(covered_by_readers(&[0..100, 99..100]), 100);
    assert_eq!(covered_by_readers(&[20..30, 10..40]), 30);
    assert_eq!(covered_by_readers(&[0..100, 10..90, 20..80]), 100);
}

#[test]
fn a_run_inside_another_does_not_hide_how_far_that_one_reaches() {
    assert_eq!(covered_by_readers(&[0..100, 10..20, 50..120]), 120);
    assert_eq!(covered_by_readers(&[0..100, 10..20, 30..40, 100..110]), 110);
}

#[test]
fn the_same_run_three_times_is_one() {
    assert_eq!(covered_by_readers(&[5..9, 5..9, 5..9]), 4);
}

#[test]
fn runs_that_end_together_are_counted_from_the_first_start() {
    assert_eq!(covered_by_readers(&[0..10, 4..10]), 10);
    assert_eq!(covered_by_readers(&[4..10, 0..10]), 10);
    assert_eq!(covered_by_readers(&[9..10, 4..10, 0..3]), 9);
}

#[test]
fn the_order_by_seat_does_not_matter() {
    assert_eq!(covered_by_readers(&[20..30, 10..20, 0..5]), 25);
    assert_eq!(covered_by_readers(&[20..30, 15..25, 0..18]), 30);
    assert_eq!(covered_by_readers(&[50..60, 0..10, 40..55, 5..20, 30..31]), 41);
    assert_eq!(covered_by_readers(&[50..60, 0..100, 200..300, 90..110]), 210);
}

#[test]
fn no_holder_covers_nothing() {
    let tables = Tables::fresh(Ordinary, 1, 1, LONGEST_TITLE);
    assert_eq!(covered(&tables), 0);
}

/// The runs of the seats that hold, in sound tables.
fn held(tables: &Tables) -> Vec<Range<u32>> {
    let own_run = |seat: &[u32]| word(&tables.nodes, seat[OWN], START)..word(&tables.nodes, seat[OWN], END);
    tables.seats.chunks(SEAT_WORDS).filter(|seat| seat[PHASE] == HOLDING).map(own_run).collect()
}

/// Sound tables within thirty frames that nobody need have reached: nodes on the list and off it, in no order of their first
/// frames, some marked; of the seats most hold, some of them the same node.
fn small_tables(random: &mut Random) -> Tables {
    let node_count = random.between(1, 9);
    let mut tables = Tables::fresh(Ordinary, node_count, random.between(1, 9), 30);
    for node in 1..=node_count {
        let length = random.pick(&[1, 2, 3, 8, 15]);
        let start = random.between(0, 30 - length);
        tables.nodes[Ordinary.place(node, START)] = start;
        tables.nodes[Ordinary.place(node, END)] = start + length;
        tables.nodes[Ordinary.place(node, KIND)] = random.between(1, 2);
        tables.nodes[Ordinary.place(node, MARK)] = random.below(2);
    }
    for node in 1..=random.between(0, node_count) {
        tables.nodes[Ordinary.link(node - 1)] = node;
    }
    for seat in tables.seats.chunks_mut(SEAT_WORDS) {
        if random.percent(80) {
            seat[PHASE] = HOLDING;
            seat[OWN] = random.between(1, node_count);
        }
    }
    tables.put_counts();
    tables
}

#[test]
fn covered_is_what_counting_frame_by_frame_gives() {
    let mut random = Random::new(6);
    for _ in 0..20_000 {
        let tables = small_tables(&mut random);
        let runs = held(&tables);
        let frames = (0..30).filter(|frame| runs.iter().any(|run| run.contains(frame))).count();
        assert_eq!(covered(&tables), frames as u64, "{runs:?}");
    }
}

/// Between two neighbouring bounds of runs either all frames are covered or none is, so that large runs can be counted too.
#[test]
fn covered_is_what_counting_from_bound_to_bound_gives() {
    let mut random = Random::new(7);
    for _ in 0..4_000 {
        let tables = many_holders(&mut random, Ordinary);
        let runs = held(&tables);
        let mut bounds: Vec<u32> = runs.iter().flat_map(|run| [run.start, run.end]).collect();
        bounds.sort_unstable();
        let pieces = bounds.windows(2).filter(|piece| runs.iter().any(|run| run.contains(&piece[0])));
        let frames: u64 = pieces.map(|piece| u64::from(piece[1] - piece[0])).sum();
        assert_eq!(covered(&tables), frames, "{runs:?}");
    }
}
