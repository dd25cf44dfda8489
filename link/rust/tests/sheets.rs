//! A writers' sheet: a claim's life in four messages, whom it waits for, that holders share no frame whatever the order of messages, what
//! it refuses, and that it never goes back. What its calls have in common with those on `Tables` is tried by `tests/header.c` on both.

use soodhiqune::lent::{sheet as lent, HOLDING_READERS, HOLDING_WRITERS, MOST_NODES, MOST_SEATS, TITLE};
use soodhiqune::{Answer, Board, Kind, Ran, Refused, Row, Sheet, Shown, Tables};

const SEAT_1_HOLDS: Row = Row { seat: 1, start: 36, end: 96, kind: 2 };

#[test]
fn a_claim_lives_in_four_messages() {
    let mut sheet = Sheet::new(2, 2, 240).unwrap();
    assert_eq!(sheet.reserve(0, 0..48, Kind::Writes), Ok(Answer::Node(1)));
    assert_eq!(sheet.enter(0), Ok(Answer::On));
    assert_eq!(sheet.step(0), Ok(Answer::Held));
    assert_eq!(sheet.holding_writers(), 1);
    assert_eq!(sheet.release(0), Ok(Answer::Out));
    assert_eq!(sheet.holding_writers(), 0);
}

#[test]
fn ordinary_tables_take_one_message_more() {
    let mut tables = Tables::new(2, 2, 240).unwrap();
    tables.reserve(0, 0..48, Kind::Writes).unwrap();
    assert_eq!([(); 3].map(|()| tables.step(0).unwrap()), [Answer::On, Answer::On, Answer::Held]);
    let mut sheet = Sheet::new(2, 2, 240).unwrap();
    sheet.reserve(0, 0..48, Kind::Writes).unwrap();
    assert_eq!([(); 3].map(|()| sheet.step(0).unwrap()), [Answer::On, Answer::Held, Answer::Held]);
}

/// Seat 0 holds frames 0 up to 48; seat 1, which wants 36 up to 96, waits for those that both cover.
fn seat_1_waits() -> Sheet {
    let mut sheet = Sheet::new(4, 3, 240).unwrap();
    sheet.reserve(0, 0..48, Kind::Writes).unwrap();
    assert_eq!(sheet.run(&[0, 0], 9), Ran { steps: 2, refused: None });
    assert_eq!(sheet.reserve(1, 36..96, 2_u32), Ok(Answer::Node(2)));
    assert_eq!(sheet.enter(1), Ok(Answer::On));
    assert_eq!(sheet.step(1), Ok(Answer::Wait { node: 1, first: 36, end: 48 }));
    sheet
}

/// Seat 1 holds, as seat 0 has released.
fn seat_1_holds() -> Sheet {
    let mut sheet = seat_1_waits();
    assert_eq!(sheet.release(0), Ok(Answer::Out));
    assert_eq!([(); 3].map(|()| sheet.step(1).unwrap()), [Answer::On, Answer::On, Answer::Held]);
    sheet
}

#[test]
fn a_claim_waits_for_the_frames_that_both_cover_and_holds_after() {
    let mut sheet = seat_1_waits();
    let waiting = sheet.clone();
    assert_eq!(sheet.step(1).unwrap().shared(), Some(36..48), "it waits on");
    assert_eq!(sheet, waiting);
    assert_eq!((sheet.holding_writers(), sheet.free_count()), (1, Ok(2)));
    assert_eq!(seat_1_holds().board(), Ok(Board { rows: vec![SEAT_1_HOLDS], covered: 60 }));
}

#[test]
fn lent_tables_end_in_the_same_words() {
    let (mut nodes, mut seats) = (vec![7; lent::node_words(4)], vec![7; lent::seat_words(3)]);
    assert_eq!(lent::clear(&mut nodes, &mut seats, 240), Ok(()));
    assert_eq!(lent::reserve(&mut nodes, &mut seats, 0, 0..48, Kind::Writes), Ok(Answer::Node(1)));
    assert_eq!(lent::run(&mut nodes, &mut seats, &[0, 0, 1], 9), Ran { steps: 2, refused: Some(Refused::SeatIdle) });
    assert_eq!(lent::reserve(&mut nodes, &mut seats, 1, 36..96, Kind::Writes), Ok(Answer::Node(2)));
    assert_eq!(lent::enter(&nodes, &mut seats, 1), Ok(Answer::On));
    assert_eq!(lent::step(&mut nodes, &mut seats, 1), Ok(Answer::Wait { node: 1, first: 36, end: 48 }));
    assert_eq!(Sheet::from_words(nodes.clone(), seats.clone()), seat_1_waits());
    assert_eq!(lent::free_count(&nodes, &seats), Ok(2));
    assert_eq!(lent::release(&mut nodes, &mut seats, 0), Ok(Answer::Out));
    assert_eq!(lent::run(&mut nodes, &mut seats, &[1; 9], 3), Ran { steps: 3, refused: None });
    assert_eq!(seat_1_holds().words(), (&nodes[..], &seats[..]));
    let untouched = Row { seat: 9, start: 9, end: 9, kind: 9 };
    let mut rows = [untouched; 2];
    assert_eq!(lent::board(&nodes, &seats, &mut rows), Ok(Shown { rows: 1, covered: 60 }));
    assert_eq!(rows, [SEAT_1_HOLDS, untouched]);
    assert_eq!(lent::board(&nodes, &seats, &mut []), Err(Refused::BoardTooShort));
}

// ---- any order of messages

/// Numbers by a seed, the same on every machine.
struct Numbers(u64);

impl Numbers {
    fn below(&mut self, bound: u32) -> u32 {
        self.0 = self.0.wrapping_mul(6_364_136_223_846_793_005).wrapping_add(1_442_695_040_888_963_407);
        (self.0 >> 33) as u32 % bound
    }
}

const FRAMES: u32 = 40;

/// A message of the seat: it steps a claim, and now and then releases one that holds; an idle seat reserves. Only reserve finds no node.
fn message(sheet: &mut Sheet, seat: u32, numbers: &mut Numbers) -> Option<Answer> {
    if numbers.below(3) == 0 {
        if let Ok(answer) = sheet.release(seat) {
            return Some(answer);
        }
    }
    match sheet.step(seat) {
        Err(Refused::SeatIdle) => {
            let start = numbers.below(FRAMES - 1);
            let end = start + 1 + numbers.below(FRAMES - start);
            let reserved = sheet.reserve(seat, start..end, Kind::Writes);
            assert!(matches!(reserved, Ok(Answer::Node(_)) | Err(Refused::NoNodeFree)), "{reserved:?}");
            reserved.ok()
        }
        answer => Some(answer.unwrap()),
    }
}

/// Holders share no frame, so that the frames covered are the sum of theirs; they are counted; and a seat has a phase of a sheet.
fn is_apart(sheet: &Sheet) {
    let board = sheet.board().unwrap();
    for (place, one) in board.rows.iter().enumerate() {
        assert_eq!(one.kind, 2);
        assert!(board.rows[..place].iter().all(|other| one.end <= other.start || other.end <= one.start), "{board:?}");
    }
    assert_eq!(board.covered, board.rows.iter().map(|row| u64::from(row.end - row.start)).sum::<u64>());
    let (nodes, seats) = sheet.words();
    assert_eq!([nodes[HOLDING_READERS], nodes[HOLDING_WRITERS]], [0, board.rows.len() as u32]);
    assert!(seats.chunks(lent::seat_words(1)).all(|seat| [0, 1, 2, 5, 7].contains(&seat[0])), "{seats:?}");
}

#[test]
fn holders_share_no_frame_and_none_goes_back_whatever_the_order_of_messages() {
    let (mut held, mut waited, mut most) = (0, 0, 0);
    for (seed, nodes) in [(1, 4), (2, 6), (3, 12), (4, MOST_NODES)] {
        let mut sheet = Sheet::new(nodes, 6, FRAMES).unwrap();
        let mut numbers = Numbers(seed);
        for _ in 0..2000 {
            let seat = numbers.below(6);
            let answer = message(&mut sheet, seat, &mut numbers);
            assert_ne!(answer, Some(Answer::Back));
            held += u32::from(answer == Some(Answer::Held));
            waited += u32::from(answer.and_then(Answer::shared).is_some());
            most = most.max(sheet.holding_writers());
            is_apart(&sheet);
        }
    }
    assert!(
        held > 100 && waited > 100 && most > 1,
        "too few met to tell: {held} held, {waited} waited, {most} at once"
    );
}

// ---- refusals

/// A call that is refused so, while seat 1 waits for seat 0, and leaves the sheet as it was.
fn refuses(refused: Refused, call: impl Fn(&mut Sheet) -> Result<Answer, Refused>) {
    let mut sheet = seat_1_waits();
    assert_eq!(call(&mut sheet), Err(refused));
    assert_eq!(sheet, seat_1_waits(), "{refused}");
}

#[test]
fn a_claim_that_reads_is_of_no_such_kind() {
    refuses(Refused::NoSuchKind, |sheet| sheet.reserve(2, 100..120, Kind::Reads));
    refuses(Refused::NoSuchKind, |sheet| sheet.reserve(2, 100..120, 1_u32));
    refuses(Refused::NoSuchKind, |sheet| sheet.reserve(2, 100..120, 3_u32));
    refuses(Refused::NoSuchKind, |sheet| sheet.reserve(0, 100..120, Kind::Reads));
    refuses(Refused::BeyondTitle, |sheet| sheet.reserve(2, 100..241, Kind::Reads));
    assert_eq!(Refused::NoSuchKind.number(), 4);
}

#[test]
fn the_first_refusal_that_holds_is_given() {
    refuses(Refused::NoSuchSeat, |sheet| sheet.reserve(3, 241..241, Kind::Reads));
    refuses(Refused::EmptyClaim, |sheet| sheet.reserve(0, 241..241, Kind::Reads));
    refuses(Refused::BeyondTitle, |sheet| sheet.reserve(0, 7..241, Kind::Reads));
    refuses(Refused::SeatHasClaim, |sheet| sheet.reserve(0, 7..240, Kind::Writes));
    refuses(Refused::NoSuchSeat, |sheet| sheet.enter(3));
    refuses(Refused::NotReserved, |sheet| sheet.enter(1));
    refuses(Refused::NoSuchSeat, |sheet| sheet.step(3));
    refuses(Refused::SeatIdle, |sheet| sheet.step(2));
    refuses(Refused::NoSuchSeat, |sheet| sheet.release(3));
    refuses(Refused::NotHolding, |sheet| sheet.release(1));
}

#[test]
fn reserve_alone_finds_no_node_free() {
    let mut sheet = Sheet::new(1, 2, 240).unwrap();
    sheet.reserve(0, 0..48, Kind::Writes).unwrap();
    let reserved = sheet.clone();
    assert_eq!(sheet.reserve(1, 100..120, Kind::Writes), Err(Refused::NoNodeFree));
    assert_eq!((sheet.free_count(), &sheet), (Ok(0), &reserved));
    assert_eq!([(); 2].map(|()| sheet.step(0).unwrap()), [Answer::On, Answer::Held]);
}

#[test]
fn sizes_and_titles_are_tried_as_those_of_tables() {
    assert_eq!(Sheet::new(4, 3, 0), Err(Refused::EmptyTitle));
    for (nodes, seats) in [(0, 1), (1, 0), (MOST_NODES + 1, 1), (1, MOST_SEATS + 1), (usize::MAX, usize::MAX)] {
        assert_eq!(Sheet::new(nodes, seats, 240), Err(Refused::Damaged), "{nodes} {seats}");
    }
    let mut sheet = Sheet::new(MOST_NODES, MOST_SEATS, u32::MAX).unwrap();
    assert_eq!((sheet.title(), sheet.clear(240), sheet.title()), (u32::MAX, Ok(()), 240));
    assert_eq!(Ok(sheet), Sheet::new(MOST_NODES, MOST_SEATS, 240));
}

/// What every call but clear says of these words.
fn all_find_damage(nodes: &[u32], seats: &[u32]) {
    let before = Sheet::from_words(nodes.to_vec(), seats.to_vec());
    let mut sheet = before.clone();
    let asked = [
        sheet.reserve(2, 100..120, Kind::Writes),
        sheet.enter(1),
        sheet.step(1),
        sheet.release(0),
        sheet.board().map(|_| Answer::Out),
        sheet.free_count().map(|_| Answer::Out),
    ];
    assert_eq!(asked, [Err(Refused::Damaged); 6]);
    assert_eq!(sheet.run(&[1], 9), Ran { steps: 0, refused: Some(Refused::Damaged) });
    assert_eq!(sheet, before);
}

/// Where the phase of seat 1 stands, and the kind of node 2, which is its own.
const PHASE_OF_SEAT_1: usize = lent::seat_words(1);
const KIND_OF_NODE_2: usize = lent::node_words(1) + 2;

#[test]
fn the_phases_that_a_sheet_has_not_are_damage() {
    let sheet = seat_1_waits();
    let (nodes, seats) = sheet.words();
    for (phase, is_sound) in [(1, true), (2, true), (3, false), (4, false), (5, false), (6, false), (8, false)] {
        let mut put = seats.to_vec();
        put[PHASE_OF_SEAT_1] = phase;
        if is_sound {
            assert_eq!(lent::free_count(nodes, &put), Ok(2), "{phase}");
        } else {
            all_find_damage(nodes, &put);
        }
    }
}

#[test]
fn a_node_that_reads_is_damage_though_it_is_free() {
    let sheet = seat_1_waits();
    let (mut nodes, seats) = (sheet.words().0.to_vec(), sheet.words().1.to_vec());
    nodes[KIND_OF_NODE_2] = 1;
    all_find_damage(&nodes, &seats);
    nodes[KIND_OF_NODE_2] = 2;
    nodes[lent::node_words(3)..].copy_from_slice(&[10, 20, 1, 0, 0]);
    all_find_damage(&nodes, &seats);
    nodes[lent::node_words(3) + 2] = 2;
    assert_eq!(lent::free_count(&nodes, &seats), Ok(2));
    nodes[TITLE] = 95;
    all_find_damage(&nodes, &seats);
}

#[test]
fn ordinary_tables_with_a_reader_are_no_sheet() {
    let mut tables = Tables::new(4, 3, 240).unwrap();
    tables.reserve(0, 0..48, Kind::Reads).unwrap();
    tables.run(&[0; 3], 9);
    tables.reserve(1, 36..96, Kind::Writes).unwrap();
    all_find_damage(tables.words().0, tables.words().1);
    assert_eq!(tables.release(0), Ok(Answer::Out), "the tables are sound");
}
