//! Record locks read as claims and claims written as locks: what each refusal is, whose it is, and that it changes nothing.

use soodhiqune::{export, import, lent, Answer, Claim, Kind, Lock, NotMoved, Refused, Tables};

fn lock(kind: i64, start: i64, length: i64) -> Lock {
    Lock { kind, start, length }
}

fn claim(start: u32, end: u32, kind: u32) -> Claim {
    Claim { start, end, kind }
}

const LAST: i64 = 4_294_967_295;

#[test]
fn locks_are_read_as_claims() {
    let locks = [lock(1, 10, 5), lock(2, 15, -5), lock(1, 15, 0), lock(2, 20, -20)];
    let claims = [claim(10, 15, 1), claim(10, 15, 2), claim(15, 20, 1), claim(0, 20, 2)];
    assert_eq!(import(20, &locks), Ok(claims.to_vec()));
    assert_eq!(import(u32::MAX, &[lock(1, LAST, -LAST)]), Ok(vec![claim(0, u32::MAX, 1)]));
    assert_eq!(import(u32::MAX, &[lock(2, LAST - 1, 1)]), Ok(vec![claim(u32::MAX - 1, u32::MAX, 2)]));
    assert_eq!(import(20, &[]), Ok(vec![]));
}

#[test]
fn claims_are_written_as_locks_and_read_again() {
    let claims = [claim(10, 15, 1), claim(0, 19, 2), claim(15, 20, 1), claim(0, 20, 2)];
    let locks = [lock(1, 10, 5), lock(2, 0, 19), lock(1, 15, 0), lock(2, 0, 0)];
    assert_eq!(export(20, &claims), Ok(locks.to_vec()));
    assert_eq!(import(20, &locks), Ok(claims.to_vec()));
    assert_eq!(export(u32::MAX, &[claim(0, u32::MAX - 1, 1)]), Ok(vec![lock(1, 0, LAST - 1)]));
    assert_eq!(export(20, &[]), Ok(vec![]));
}

fn at(place: usize, refused: Refused) -> NotMoved {
    NotMoved { refused, place: Some(place) }
}

#[test]
fn a_bad_lock_is_named_by_its_place() {
    for (bad, refused) in [
        (lock(1, -1, 5), Refused::NoRun),
        (lock(9, 5, -6), Refused::NoRun),
        (lock(1, 20, 0), Refused::NoRun),
        (lock(1, LAST, 1), Refused::NoRun),
        (lock(1, i64::MAX, i64::MAX), Refused::NoRun),
        (lock(1, i64::MIN, i64::MIN), Refused::NoRun),
        (lock(3, 10, 11), Refused::NoSuchType),
        (lock(LAST + 2, 10, 5), Refused::NoSuchType),
        (lock(2, 10, 11), Refused::BeyondTitle),
    ] {
        let good = lock(1, 0, 1);
        assert_eq!(import(20, &[bad]), Err(at(0, refused)), "{bad:?}");
        assert_eq!(import(20, &[good, good, bad, lock(9, -9, 9)]), Err(at(2, refused)), "{bad:?}");
    }
}

#[test]
fn a_bad_claim_is_named_by_its_place() {
    for (bad, refused) in [
        (claim(10, 10, 1), Refused::EmptyClaim),
        (claim(30, 29, 9), Refused::EmptyClaim),
        (claim(10, 21, 9), Refused::BeyondTitle),
        (claim(10, 15, 0), Refused::NoSuchKind),
        (claim(10, 20, 3), Refused::NoSuchKind),
    ] {
        assert_eq!(export(20, &[bad]), Err(at(0, refused)), "{bad:?}");
        assert_eq!(export(20, &[claim(0, 1, 1), bad, claim(1, 1, 1)]), Err(at(1, refused)), "{bad:?}");
    }
}

#[test]
fn a_title_without_frames_and_a_list_too_short_are_no_records() {
    let no_title = NotMoved { refused: Refused::EmptyTitle, place: None };
    assert_eq!(import(0, &[]), Err(no_title));
    assert_eq!(export(0, &[]), Err(no_title));
    assert_eq!(import(0, &[lock(9, -1, 0)]), Err(no_title));
    assert_eq!(export(0, &[claim(1, 1, 9)]), Err(no_title));
    let too_short = Err(NotMoved { refused: Refused::ListTooShort, place: None });
    assert_eq!(lent::import(20, &[lock(1, 0, 1)], &mut []), too_short);
    assert_eq!(lent::export(20, &[claim(0, 1, 1)], &mut []), too_short);
}

#[test]
fn lent_lists_keep_what_is_behind_the_records_and_all_of_it_if_refused() {
    let untouched = claim(9, 9, 9);
    let mut claims = [untouched; 3];
    assert_eq!(lent::import(20, &[lock(1, 0, 1), lock(2, -1, 1)], &mut claims), Err(at(1, Refused::NoRun)));
    assert_eq!(lent::import(20, &[lock(1, 0, 1); 4], &mut claims).unwrap_err().refused, Refused::ListTooShort);
    assert_eq!(claims, [untouched; 3]);
    assert_eq!(lent::import(20, &[lock(1, 0, 1), lock(2, 1, -1)], &mut claims), Ok(()));
    assert_eq!(claims, [claim(0, 1, 1), claim(0, 1, 2), untouched]);
    let untouched = lock(9, 9, 9);
    let mut locks = [untouched; 3];
    assert_eq!(lent::export(20, &[claim(0, 1, 1), claim(0, 1, 3)], &mut locks), Err(at(1, Refused::NoSuchKind)));
    assert_eq!(locks, [untouched; 3]);
    assert_eq!(lent::export(20, &claims[..2], &mut locks), Ok(()));
    assert_eq!(locks, [lock(1, 0, 1), lock(2, 0, 1), untouched]);
}

#[test]
fn an_imported_claim_is_reserved() {
    let mut tables = Tables::new(2, 2, 20).unwrap();
    for (seat, claim) in (0..).zip(import(20, &[lock(2, 15, -5), lock(1, 15, 0)]).unwrap()) {
        assert_eq!(tables.reserve(seat, claim.frames(), claim.kind), Ok(Answer::Node(seat + 1)));
        assert_eq!(tables.enter(seat), Ok(Answer::On));
        while tables.step(seat).unwrap() != Answer::Held {}
    }
    let board = tables.board().unwrap().rows;
    let held: Vec<Claim> = board.iter().map(|row| claim(row.start, row.end, row.kind)).collect();
    assert_eq!(
        export(tables.title(), &held),
        Ok(vec![lock(Kind::Writes.into(), 10, 5), lock(Kind::Reads.into(), 15, 0)])
    );
}

#[test]
fn what_is_not_moved_has_words() {
    let told = import(20, &[lock(1, 0, 1), lock(1, 10, 11)]).unwrap_err();
    assert_eq!(told.to_string(), "record 1: the claim ends beyond the title");
    let error: Box<dyn std::error::Error> = import(0, &[]).unwrap_err().into();
    assert_eq!(error.to_string(), "the title has no frames");
}
