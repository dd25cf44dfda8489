//! Each refusal of a call on tables, met; and that it changes nothing.

use soodhiqune::lent::{self, node_words, seat_words, HOLDING_READERS, HOLDING_WRITERS, MOST_NODES, MOST_SEATS, TITLE};
use soodhiqune::{Answer, Kind, Ran, Refused, Row, Tables};

/// One node, which seat 0 holds; seat 1 is idle.
fn seat_0_holds() -> Tables {
    let mut tables = Tables::new(1, 2, 10).unwrap();
    tables.reserve(0, 0..10, Kind::Writes).unwrap();
    tables.enter(0).unwrap();
    assert_eq!(tables.run(&[0, 0], 9), Ran { steps: 2, refused: None });
    tables
}

/// A call that is refused so, and leaves the tables as they were.
fn refuses(refused: Refused, call: impl Fn(&mut Tables) -> Result<Answer, Refused>) {
    let mut tables = seat_0_holds();
    assert_eq!(call(&mut tables), Err(refused));
    assert_eq!(tables, seat_0_holds(), "{refused}");
}

#[test]
fn the_first_refusal_that_holds_is_given() {
    refuses(Refused::NoSuchSeat, |tables| tables.reserve(2, 11..11, 9_u32));
    refuses(Refused::EmptyClaim, |tables| tables.reserve(0, 11..11, 9_u32));
    refuses(Refused::BeyondTitle, |tables| tables.reserve(0, 7..11, 9_u32));
    refuses(Refused::BeyondTitle, |tables| tables.reserve(0, 7..11, Kind::Reads));
    refuses(Refused::BeyondTitle, |tables| tables.reserve(1, 7..11, Kind::Reads));
    refuses(Refused::NoSuchKind, |tables| tables.reserve(0, 7..10, 9_u32));
    refuses(Refused::SeatHasClaim, |tables| tables.reserve(0, 7..10, Kind::Reads));
    refuses(Refused::NoNodeFree, |tables| tables.reserve(1, 7..10, Kind::Reads));
    refuses(Refused::NoSuchSeat, |tables| tables.enter(2));
    refuses(Refused::NotReserved, |tables| tables.enter(0));
    refuses(Refused::NotReserved, |tables| tables.enter(1));
    refuses(Refused::NoSuchSeat, |tables| tables.step(u32::MAX));
    refuses(Refused::SeatIdle, |tables| tables.step(1));
    refuses(Refused::NoSuchSeat, |tables| tables.release(2));
    refuses(Refused::NotHolding, |tables| tables.release(1));
}

/// Every call but clear finds these tables damaged, and leaves them as they were.
fn all_find_damage(nodes: Vec<u32>, seats: Vec<u32>) {
    let before = Tables::from_words(nodes, seats);
    let mut tables = before.clone();
    assert_eq!(tables.reserve(0, 7..8, Kind::Reads), Err(Refused::Damaged));
    assert_eq!(tables.enter(0), Err(Refused::Damaged));
    assert_eq!(tables.step(0), Err(Refused::Damaged));
    assert_eq!(tables.release(0), Err(Refused::Damaged));
    assert_eq!(tables.run(&[0], 9), Ran { steps: 0, refused: Some(Refused::Damaged) });
    assert_eq!(tables.board(), Err(Refused::Damaged));
    assert_eq!(tables.free_count(), Err(Refused::Damaged));
    assert_eq!(tables, before);
}

#[test]
fn a_table_of_a_wrong_size_is_refused_by_every_call() {
    let (no_node, node, seat) = (node_words(0), node_words(1), seat_words(1));
    let wrong_nodes =
        [0, no_node - 1, no_node, node - 1, node + 1, node_words(MOST_NODES + 1)].map(|nodes| (nodes, seat));
    let wrong_seats = [0, seat - 1, seat + 1, seat_words(MOST_SEATS + 1)].map(|seats| (node, seats));
    for (nodes, seats) in wrong_nodes.into_iter().chain(wrong_seats) {
        let mut zeros_but_title = vec![0; nodes];
        zeros_but_title.iter_mut().skip(TITLE).take(1).for_each(|title| *title = 10);
        all_find_damage(zeros_but_title, vec![0; seats]);
        let mut tables = Tables::from_words(vec![7; nodes], vec![7; seats]);
        for title in [0, 10] {
            assert_eq!(tables.clear(title), Err(Refused::Damaged), "{nodes} {seats} {title}");
        }
        assert_eq!(tables, Tables::from_words(vec![7; nodes], vec![7; seats]));
    }
    assert!(Tables::new(1, 1, 1).is_ok() && Tables::new(MOST_NODES, MOST_SEATS, u32::MAX).is_ok());
    for (nodes, seats) in [(0, 1), (1, 0), (MOST_NODES + 1, 1), (1, MOST_SEATS + 1), (usize::MAX, usize::MAX)] {
        for title in [0, 10] {
            assert_eq!(Tables::new(nodes, seats, title), Err(Refused::Damaged), "{nodes} {seats} {title}");
        }
    }
}

#[test]
fn damaged_words_are_refused_by_every_call() {
    all_find_damage(vec![7; node_words(4)], vec![0; seat_words(3)]);
    all_find_damage(Tables::new(4, 3, 10).unwrap().words().0.to_vec(), vec![7; seat_words(3)]);
}

#[test]
fn a_title_of_no_frames_is_refused() {
    assert_eq!(Tables::new(1, 2, 0), Err(Refused::EmptyTitle));
    let mut tables = seat_0_holds();
    assert_eq!(tables.clear(0), Err(Refused::EmptyTitle));
    assert_eq!(tables, seat_0_holds());
    let mut damaged = Tables::from_words(vec![7; node_words(4)], vec![7; seat_words(3)]);
    assert_eq!(damaged.clear(0), Err(Refused::EmptyTitle));
    assert_eq!(damaged, Tables::from_words(vec![7; node_words(4)], vec![7; seat_words(3)]));
}

#[test]
fn a_title_that_does_not_fit_is_refused_by_every_call() {
    let mut held = seat_0_holds();
    for title in [0, 1, 9] {
        let mut nodes = held.words().0.to_vec();
        nodes[TITLE] = title;
        all_find_damage(nodes, held.words().1.to_vec());
    }
    held.release(0).unwrap();
    let (mut nodes, seats) = (held.words().0.to_vec(), held.words().1.to_vec());
    nodes[TITLE] = 9;
    all_find_damage(nodes, seats.clone());
    let mut fresh = Tables::new(1, 2, 1).unwrap().words().0.to_vec();
    fresh[TITLE] = 0;
    all_find_damage(fresh, seats);
}

#[test]
fn wrong_counts_of_holders_are_refused_by_every_call() {
    let held = seat_0_holds();
    let (nodes, seats) = held.words();
    assert_eq!((held.holding_readers(), held.holding_writers()), (0, 1));
    for (readers, writers) in [(1, 1), (0, 0), (0, 2), (1, 0), (u32::MAX, 1), (0, u32::MAX)] {
        let mut miscounted = nodes.to_vec();
        miscounted[HOLDING_READERS] = readers;
        miscounted[HOLDING_WRITERS] = writers;
        all_find_damage(miscounted, seats.to_vec());
    }
    assert!(held.free_count().is_ok());
}

#[test]
fn tables_too_short_for_counts_and_a_title_have_none() {
    let tables = Tables::from_words(vec![7], Vec::new());
    assert_eq!((tables.holding_readers(), tables.holding_writers(), tables.title()), (0, 0, 0));
}

#[test]
fn the_tables_of_two_sheets_do_not_fit_together() {
    let (held, fresh) = (seat_0_holds(), Tables::new(1, 2, 10).unwrap());
    assert_eq!(lent::free_count(fresh.words().0, held.words().1), Err(Refused::Damaged));
}

#[test]
fn a_board_too_short_keeps_its_rows() {
    let tables = seat_0_holds();
    let (nodes, seats) = tables.words();
    assert_eq!(lent::board(nodes, seats, &mut []), Err(Refused::BoardTooShort));
    let mut both = Tables::new(2, 2, 1).unwrap();
    both.reserve(0, 0..1, Kind::Reads).unwrap();
    both.run(&[0; 3], 9);
    both.reserve(1, 0..1, Kind::Reads).unwrap();
    both.run(&[1; 4], 9);
    let (nodes, seats) = both.words();
    let mut rows = [Row { seat: 9, start: 9, end: 9, kind: 9 }];
    assert_eq!(lent::board(nodes, seats, &mut rows), Err(Refused::BoardTooShort));
    assert_eq!(rows, [Row { seat: 9, start: 9, end: 9, kind: 9 }]);
}

#[test]
fn a_reserved_seat_has_a_claim_and_does_not_hold() {
    let mut tables = Tables::new(2, 1, 10).unwrap();
    tables.reserve(0, 0..10, Kind::Writes).unwrap();
    let reserved = tables.clone();
    assert_eq!(tables.reserve(0, 0..10, Kind::Writes), Err(Refused::SeatHasClaim));
    assert_eq!(tables.release(0), Err(Refused::NotHolding));
    assert_eq!(tables, reserved);
    for (words, sound) in [([7, 1, 0, 0], true), ([7, 0, 0, 0], false), ([7, 1, 1, 0], false), ([8, 1, 0, 0], false)] {
        let (nodes, _) = reserved.words();
        if sound {
            assert_eq!(lent::enter(nodes, &mut words.to_vec(), 0), Ok(Answer::On));
        } else {
            all_find_damage(nodes.to_vec(), words.to_vec());
        }
    }
}

#[test]
fn a_refusal_is_an_error() {
    fn asked() -> Result<(), Box<dyn std::error::Error>> {
        Tables::new(1, 1, 1)?.step(0)?;
        Ok(())
    }
    assert_eq!(asked().unwrap_err().to_string(), "the seat has no claim");
}
