//! Each refusal, the board, run, and a step that damages.

use crate::machine::Profile::Ordinary;
use crate::machine::{Answer, END, HEAD, KIND, NEXT, OWN, PHASE, PREV, START, TITLE, WALKING};
use crate::tables::Tables;

#[test]
fn the_first_refusal_that_holds_is_given() {
    let mut tables = Tables::fresh(Ordinary, 1, 2, 8);
    assert_eq!(tables.reserve(2, 9, 9, 9), Err(2));
    assert_eq!(tables.reserve(0, 9, 9, 9), Err(3));
    assert_eq!(tables.reserve(0, 7, 9, 9), Err(11));
    assert_eq!(tables.reserve(0, 7, 8, 9), Err(4));
    assert_eq!(tables.reserve(0, 7, 8, 2), Ok(Answer::Node(1)));
    assert_eq!(tables.reserve(0, 7, 8, 2), Err(5));
    assert_eq!(tables.enter(2), Err(2));
    assert_eq!(tables.enter(1), Err(14));
    assert_eq!(tables.enter(0), Ok(Answer::On));
    assert_eq!(tables.enter(0), Err(14));
    assert_eq!(tables.reserve(1, 7, 8, 2), Err(8));
    assert_eq!(tables.step(1), Err(6));
    assert_eq!(tables.step(u32::MAX), Err(2));
    assert_eq!(tables.release(0), Err(7));
    assert_eq!(tables.release(2), Err(2));
    tables.nodes[HEAD] = 2;
    assert_eq!(tables.reserve(2, 7, 7, 9), Err(1));
    assert_eq!(tables.enter(2), Err(1));
    assert_eq!(tables.step(2), Err(1));
    assert_eq!(tables.release(2), Err(1));
    assert_eq!(tables.free_count(), Err(1));
    assert_eq!(tables.board(&mut []), Err(1));
    assert_eq!(tables.clear(0), Err(3));
    assert_eq!(tables.clear(9), Ok(()));
    assert_eq!(tables, Tables::fresh(Ordinary, 1, 2, 9));
}

#[test]
fn lengths_that_do_not_fit_are_refused() {
    let node_words = |count| Tables::fresh(Ordinary, count, 0, 1).nodes.len();
    let seat_words = |count| Tables::fresh(Ordinary, 0, count, 1).seats.len();
    let (one, seat) = (node_words(1), seat_words(1));
    let no_node = node_words(0);
    let wrong_nodes = [0, 1, no_node - 1, no_node, one - 1, one + 1, node_words(257)].map(|nodes| (nodes, seat));
    let wrong_seats = [0, seat - 1, seat + 1, seat_words(65)].map(|seats| (one, seats));
    for (nodes, seats) in wrong_nodes.into_iter().chain(wrong_seats) {
        assert_eq!(Ordinary.clear(&mut vec![7; nodes], &mut vec![7; seats], 1), Err(1), "{nodes} {seats}");
        let mut zeros = vec![0; nodes];
        zeros.iter_mut().skip(TITLE).take(1).for_each(|title| *title = 1);
        assert_eq!(Ordinary.free_count(&zeros, &vec![0; seats]), Err(1), "{nodes} {seats}");
    }
    for (nodes, seats) in [(256, 64), (1, 1)] {
        let tables = Tables::fresh(Ordinary, nodes, seats, 1);
        assert_eq!(tables.free_count(), Ok(nodes));
    }
}

/// A writer of each seat's own frame that holds.
fn all_hold(seat_count: u32) -> Tables {
    let mut tables = Tables::fresh(Ordinary, seat_count, seat_count, seat_count);
    for seat in 0..seat_count {
        tables.reserve(seat, seat, seat + 1, 2).unwrap();
        tables.enter(seat).unwrap();
        while tables.step(seat).expect("the seat is under way") != Answer::Held {}
    }
    tables
}

#[test]
fn the_board_is_filled_by_rising_seat_and_later_words_stay() {
    let tables = all_hold(2);
    let mut rows = [9; 11];
    assert_eq!(tables.board(&mut rows), Ok((2, 2)));
    assert_eq!(rows, [0, 0, 1, 2, 1, 1, 2, 2, 9, 9, 9]);
    let mut too_few = [9; 7];
    assert_eq!(tables.board(&mut too_few), Err(9));
    assert_eq!(too_few, [9; 7]);
}

#[test]
fn run_stops_at_the_end_at_its_budget_and_at_a_refused_entry() {
    let mut tables = all_hold(2);
    assert_eq!(tables.run(&[0, 1, 0], 9), (3, 0));
    assert_eq!(tables.run(&[0, 1, 0], 2), (2, 0));
    assert_eq!(tables.run(&[0, 2, 0], 9), (1, 2));
    assert_eq!(tables.run(&[2], 0), (0, 0));
    assert_eq!(tables.release(1), Ok(Answer::Out));
    assert_eq!(tables.run(&[0, 1, 2], 9), (1, 6));
    tables.nodes[HEAD] = 3;
    assert_eq!(tables.run(&[0], 0), (0, 1));
}

#[test]
fn a_step_can_damage_sound_tables_that_were_never_reached() {
    let mut tables = Tables::fresh(Ordinary, 1, 1, 1);
    tables.nodes[HEAD] = 1;
    for (field, value) in [(START, 0), (END, 1), (KIND, 2)] {
        tables.nodes[Ordinary.place(1, field)] = value;
    }
    for (field, value) in [(PHASE, WALKING), (OWN, 1), (PREV, 1)] {
        tables.seats[field] = value;
    }
    let mut damaged = tables.nodes.clone();
    damaged[Ordinary.place(1, NEXT)] = 1;
    assert_eq!(tables.clone().run(&[0, 0], 9), (1, 1));
    assert_eq!(tables.step(0), Ok(Answer::On));
    assert_eq!(tables.nodes, damaged);
    assert_eq!(tables.step(0), Err(1));
}
