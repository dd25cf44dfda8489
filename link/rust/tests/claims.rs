//! H1 of document 01 through tables that are owned and through lent ones, how many hold, which frames clash, nodes reserved before a seat
//! enters, and the edges of run and board.

use soodhiqune::lent::{self, node_words, seat_words, HOLDING_READERS, HOLDING_WRITERS};
use soodhiqune::{Answer, Board, Kind, Ran, Refused, Row, Shown, Tables};
use std::ops::Range;

const SEAT_1_HOLDS: Row = Row { seat: 1, start: 15, end: 25, kind: 2 };

/// H1 up to its end: seat 1 holds frames 15 up to 25.
fn h1() -> Tables {
    let mut tables = Tables::new(4, 3, 25).unwrap();
    assert_eq!(tables.reserve(0, 10..20, Kind::Writes), Ok(Answer::Node(1)));
    assert_eq!(tables.enter(0), Ok(Answer::On));
    assert_eq!(tables.step(0), Ok(Answer::On));
    assert_eq!(tables.step(0), Ok(Answer::Held));
    assert_eq!(tables.reserve(1, 15..25, Kind::Writes), Ok(Answer::Node(2)));
    assert_eq!(tables.enter(1), Ok(Answer::On));
    assert_eq!(tables.step(1), Ok(Answer::Wait { node: 1, first: 15, end: 20 }));
    assert_eq!(tables.free_count(), Ok(2));
    assert_eq!(tables.release(0), Ok(Answer::Out));
    assert_eq!([(); 4].map(|()| tables.step(1).unwrap()), [Answer::On, Answer::On, Answer::On, Answer::Held]);
    tables
}

#[test]
fn h1_on_tables_that_are_owned() {
    assert_eq!(h1().board(), Ok(Board { rows: vec![SEAT_1_HOLDS], covered: 10 }));
}

#[test]
fn h1_on_lent_tables_ends_in_the_same_words() {
    let (mut nodes, mut seats) = (vec![7; node_words(4)], vec![7; seat_words(3)]);
    assert_eq!(lent::step(&mut nodes, &mut seats, 0), Err(Refused::Damaged));
    assert_eq!(lent::clear(&mut nodes, &mut seats, 25), Ok(()));
    assert_eq!(lent::reserve(&mut nodes, &mut seats, 0, 10..20, Kind::Writes), Ok(Answer::Node(1)));
    assert_eq!(lent::run(&mut nodes, &mut seats, &[0, 0, 0], 9), Ran { steps: 3, refused: None });
    assert_eq!(lent::reserve(&mut nodes, &mut seats, 1, 15..25, 2_u32), Ok(Answer::Node(2)));
    assert_eq!(lent::enter(&nodes, &mut seats, 1), Ok(Answer::On));
    assert_eq!(lent::step(&mut nodes, &mut seats, 1), Ok(Answer::Wait { node: 1, first: 15, end: 20 }));
    assert_eq!(lent::free_count(&nodes, &seats), Ok(2));
    assert_eq!(lent::release(&mut nodes, &mut seats, 0), Ok(Answer::Out));
    assert_eq!(lent::run(&mut nodes, &mut seats, &[1; 9], 4), Ran { steps: 4, refused: None });
    assert_eq!(h1().words(), (&nodes[..], &seats[..]));
    assert_eq!(Tables::from_words(nodes, seats), h1());
}

#[test]
fn the_rows_past_the_holders_stay() {
    let tables = h1();
    let (nodes, seats) = tables.words();
    let untouched = Row { seat: 9, start: 9, end: 9, kind: 9 };
    let mut rows = [untouched; 2];
    assert_eq!(lent::board(nodes, seats, &mut rows), Ok(Shown { rows: 1, covered: 10 }));
    assert_eq!(rows, [SEAT_1_HOLDS, untouched]);
}

#[test]
fn a_frame_that_two_readers_hold_is_covered_once() {
    let mut tables = Tables::new(4, 4, 100).unwrap();
    for (seat, frames) in [(0, 0..100), (1, 50..60)] {
        tables.reserve(seat, frames, Kind::Reads).unwrap();
        tables.enter(seat).unwrap();
        while tables.step(seat).unwrap() != Answer::Held {}
    }
    let board = tables.board().unwrap();
    assert_eq!((board.rows.len(), board.covered), (2, 100));
}

/// The holding readers and the holding writers, by the methods; by the constants they are the same.
fn holding(tables: &Tables) -> [u32; 2] {
    let counts = [tables.holding_readers(), tables.holding_writers()];
    assert_eq!(counts, [HOLDING_READERS, HOLDING_WRITERS].map(|word| tables.words().0[word]));
    counts
}

#[test]
fn how_many_hold_is_known_after_every_call() {
    let mut tables = Tables::new(4, 4, 30).unwrap();
    assert_eq!(holding(&tables), [0, 0]);
    for (seat, frames, kind, then) in
        [(0, 0..10, Kind::Reads, [1, 0]), (1, 5..10, Kind::Reads, [2, 0]), (2, 20..30, Kind::Writes, [2, 1])]
    {
        let before = holding(&tables);
        tables.reserve(seat, frames, kind).unwrap();
        assert_eq!(holding(&tables), before);
        tables.enter(seat).unwrap();
        assert_eq!(holding(&tables), before);
        while tables.step(seat).unwrap() != Answer::Held {
            assert_eq!(holding(&tables), before);
        }
        assert_eq!(holding(&tables), then);
    }
    assert_eq!((tables.step(2), holding(&tables)), (Ok(Answer::Held), [2, 1]), "a holder counts once");
    assert_eq!((tables.release(3), holding(&tables)), (Err(Refused::NotHolding), [2, 1]));
    assert_eq!((tables.release(0), holding(&tables)), (Ok(Answer::Out), [1, 1]));
    assert_eq!((tables.release(2), holding(&tables)), (Ok(Answer::Out), [1, 0]));
    assert_eq!((tables.clear(30), holding(&tables)), (Ok(()), [0, 0]));
}

#[test]
fn run_stops_at_its_end_its_budget_and_a_refused_entry() {
    let mut tables = h1();
    let before = tables.clone();
    assert_eq!(tables.run(&[], 9), Ran { steps: 0, refused: None });
    assert_eq!(tables.run(&[1, 1, 1], 9), Ran { steps: 3, refused: None });
    assert_eq!(tables.run(&[1, 1, 1], 2), Ran { steps: 2, refused: None });
    assert_eq!(tables.run(&[1, 0, 1], 9), Ran { steps: 1, refused: Some(Refused::SeatIdle) });
    assert_eq!(tables.run(&[3], 0), Ran { steps: 0, refused: None });
    assert_eq!(tables, before, "a holder's steps change nothing");
}

/// What seat 1 is told that claims frames 15 up to 25, while seat 0 holds these.
fn waits_at(frames: Range<u32>) -> Answer {
    let mut tables = Tables::new(2, 2, u32::MAX).unwrap();
    tables.reserve(0, frames, Kind::Reads).unwrap();
    assert_eq!(tables.run(&[0; 3], 9), Ran { steps: 3, refused: None });
    tables.reserve(1, 15..25, Kind::Writes).unwrap();
    tables.enter(1).unwrap();
    let answer = tables.step(1).unwrap();
    assert_eq!(tables.step(1), Ok(answer), "it waits on");
    answer
}

#[test]
fn wait_names_the_frames_that_both_claims_cover() {
    for (at, first, end) in [
        (10..20, 15, 20),
        (20..30, 20, 25),
        (0..u32::MAX, 15, 25),
        (17..19, 17, 19),
        (15..25, 15, 25),
        (0..16, 15, 16),
        (24..u32::MAX, 24, 25),
    ] {
        assert_eq!(waits_at(at.clone()), Answer::Wait { node: 1, first, end }, "{at:?}");
        assert_eq!(waits_at(at).shared(), Some(first..end));
    }
    assert_eq!(
        [Answer::Node(1), Answer::Out, Answer::On, Answer::Held, Answer::Back].map(Answer::shared),
        [(); 5].map(|()| None)
    );
}

/// Seat 1 is made to wait at a claim that ends where its own starts, and then at its own: no call leaves tables so.
#[test]
fn a_claim_that_shares_no_frame_is_told_0_and_0() {
    let mut tables = Tables::new(2, 2, 25).unwrap();
    tables.reserve(0, 10..20, Kind::Writes).unwrap();
    tables.run(&[0; 3], 9);
    tables.reserve(1, 15..25, Kind::Writes).unwrap();
    tables.enter(1).unwrap();
    tables.step(1).unwrap();
    let (mut nodes, mut seats) = (tables.words().0.to_vec(), tables.words().1.to_vec());
    let (end_of_node_1, cur_of_seat_1) = (node_words(0) + 1, seat_words(1) + 3);
    nodes[end_of_node_1] = 15;
    assert_eq!(lent::step(&mut nodes, &mut seats, 1), Ok(Answer::Wait { node: 1, first: 0, end: 0 }));
    seats[cur_of_seat_1] = 2;
    assert_eq!(lent::step(&mut nodes, &mut seats, 1), Ok(Answer::Wait { node: 2, first: 15, end: 25 }));
}

/// H9: seat 2 reads, and looks ahead to the writer that came in behind it.
#[test]
fn a_writer_that_meets_a_reader_goes_back() {
    let mut tables = Tables::new(8, 4, 20).unwrap();
    tables.reserve(0, 1..10, Kind::Reads).unwrap();
    tables.run(&[0; 3], 9);
    tables.reserve(1, 12..14, Kind::Reads).unwrap();
    tables.run(&[1; 4], 9);
    tables.reserve(2, 5..20, Kind::Reads).unwrap();
    tables.reserve(3, 15..20, Kind::Writes).unwrap();
    assert_eq!([2, 3].map(|seat| tables.enter(seat)), [Ok(Answer::On); 2]);
    tables.run(&[3, 3, 2, 2, 3, 2], 9);
    for _ in 0..2 {
        assert_eq!(tables.step(2), Ok(Answer::Wait { node: 4, first: 15, end: 20 }));
    }
    assert_eq!(tables.step(3), Ok(Answer::On));
    assert_eq!((tables.step(3), holding(&tables)), (Ok(Answer::Back), [2, 0]));
    assert_eq!(tables.step(2), Ok(Answer::On), "the reader's wait is over");
    assert_eq!(tables.step(3), Ok(Answer::On), "it takes a node anew, though its claim ends at the title");
    assert_eq!(tables.enter(3), Ok(Answer::On), "and enters with it");
    assert_eq!(tables.enter(3), Err(Refused::NotReserved));
}

/// The words of a seat: phase, own, prev, cur.
fn seat(tables: &Tables, number: usize) -> [u32; 4] {
    tables.words().1[seat_words(number)..][..seat_words(1)].try_into().unwrap()
}

#[test]
fn workers_that_have_their_nodes_enter_in_another_order() {
    let mut tables = Tables::new(3, 4, 100).unwrap();
    for number in 0..3 {
        assert_eq!(tables.reserve(number, 10 * number..100, Kind::Reads), Ok(Answer::Node(number + 1)));
        assert_eq!(seat(&tables, number as usize), [7, number + 1, 0, 0]);
    }
    assert_eq!((tables.reserve(3, 0..1, Kind::Reads), tables.free_count()), (Err(Refused::NoNodeFree), Ok(0)));
    assert_eq!((tables.enter(2), seat(&tables, 2)), (Ok(Answer::On), [1, 3, 0, 0]));
    assert_eq!(tables.run(&[2; 2], 9), Ran { steps: 2, refused: None });
    let nodes = tables.words().0.to_vec();
    assert_eq!((tables.enter(0), seat(&tables, 0)), (Ok(Answer::On), [1, 1, 0, 3]), "the head as it is now");
    assert_eq!(tables.words().0, nodes);
    assert_eq!((tables.step(1), seat(&tables, 1)), (Ok(Answer::On), [1, 2, 0, 3]), "a step enters too");
    while tables.step(0).unwrap() != Answer::Held || tables.step(1).unwrap() != Answer::Held {}
    assert_eq!(holding(&tables), [3, 0]);
}

#[test]
fn clear_makes_tables_fresh_again() {
    let mut tables = h1();
    tables.clear(25).unwrap();
    assert_eq!(Ok(tables), Tables::new(4, 3, 25));
}

#[test]
fn tables_of_their_own_are_used_at_once() {
    let threads: Vec<_> =
        (0..4).map(|_| std::thread::spawn(|| (0..50).map(|_| h1()).collect::<Vec<Tables>>())).collect();
    for thread in threads {
        assert!(thread.join().unwrap().into_iter().all(|tables| tables == h1()));
    }
}

#[test]
fn answers_and_kinds_have_words() {
    let wait = Answer::Wait { node: 4, first: 15, end: 20 };
    let answers = [Answer::Node(1), Answer::Out, Answer::On, wait, Answer::Held, Answer::Back];
    let words = answers.map(|answer| answer.to_string());
    assert_eq!(words, ["node 1", "out", "on", "wait 4 15 20", "held", "back"]);
    assert_eq!([Kind::Reads, Kind::Writes].map(|kind| kind.to_string()), ["reads", "writes"]);
    assert_eq!([1, 2, 3].map(Kind::try_from), [Ok(Kind::Reads), Ok(Kind::Writes), Err(Refused::NoSuchKind)]);
}
