//! Where the title ends: what it says, what may be claimed of it, and that no call but clear changes it.

use soodhiqune::lent::TITLE;
use soodhiqune::{Answer, Kind, Refused, Tables};

/// The title's frame count, by the method; by the constant it is the same.
fn title(tables: &Tables) -> u32 {
    assert_eq!(tables.words().0[TITLE], tables.title());
    tables.title()
}

#[test]
fn a_claim_may_end_at_the_title_and_not_beyond() {
    for frames in [1, 2, 20, u32::MAX - 1] {
        let mut tables = Tables::new(1, 1, frames).unwrap();
        assert_eq!(tables.reserve(0, 0..frames + 1, Kind::Writes), Err(Refused::BeyondTitle));
        assert_eq!(tables.reserve(0, frames..frames + 1, Kind::Reads), Err(Refused::BeyondTitle));
        assert_eq!(Ok(&tables), Tables::new(1, 1, frames).as_ref());
        assert_eq!(tables.reserve(0, 0..frames, Kind::Writes), Ok(Answer::Node(1)));
    }
    let mut tables = Tables::new(1, 1, u32::MAX).unwrap();
    assert_eq!(tables.reserve(0, 0..u32::MAX, Kind::Writes), Ok(Answer::Node(1)));
}

#[test]
fn the_title_stays_until_it_is_cleared() {
    let mut tables = Tables::new(2, 2, 20).unwrap();
    assert_eq!(title(&tables), 20);
    tables.reserve(0, 10..20, Kind::Writes).unwrap();
    assert_eq!((tables.enter(0), title(&tables)), (Ok(Answer::On), 20));
    while tables.step(0).unwrap() != Answer::Held {
        assert_eq!(title(&tables), 20);
    }
    assert_eq!((tables.reserve(1, 10..21, Kind::Reads), title(&tables)), (Err(Refused::BeyondTitle), 20));
    assert_eq!((tables.release(0), title(&tables)), (Ok(Answer::Out), 20));
    assert_eq!((tables.clear(0), title(&tables)), (Err(Refused::EmptyTitle), 20));
    assert_eq!((tables.clear(15), title(&tables)), (Ok(()), 15));
    assert_eq!(tables.reserve(0, 10..20, Kind::Writes), Err(Refused::BeyondTitle));
    assert_eq!(Ok(tables), Tables::new(2, 2, 15));
}

#[test]
fn the_whole_title_may_be_covered_and_no_more() {
    let mut tables = Tables::new(4, 3, 20).unwrap();
    for (seat, frames) in [(0, 0..15), (1, 5..20), (2, 19..20)] {
        tables.reserve(seat, frames, Kind::Reads).unwrap();
        while tables.step(seat).unwrap() != Answer::Held {}
    }
    assert_eq!(tables.board().unwrap().covered, u64::from(tables.title()));
}
