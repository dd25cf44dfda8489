//! Locks from the archive's file system, against slow renderings of 02's sentences: frame by frame in small titles, by sums
//! that are looked at before they are made where numbers are large; what lists are refused for, and that the two ways undo
//! each other.

use crate::library;
use crate::lists::{names, some_export, some_import, Lists, Way};
use crate::machine::Answer;
use crate::machine::Profile::Ordinary;
use crate::posix::{export, import, Claim, Lock, RECORD_WORDS};
use crate::random::Random;
use crate::shrink::shrink_lists;
use crate::tally::Tally;
use crate::tests::LONGEST_TITLE;

/// The claim of one lock, or its refusal; whatever it is, it is that of a list of one, at place 0.
fn imported(title: u32, lock: Lock) -> Result<Claim, u32> {
    let mut claim = [7; RECORD_WORDS];
    let moved = import(title, &lock, &mut claim);
    assert!(moved.is_ok() || (claim == [7; RECORD_WORDS] && moved.unwrap_err().1 == 0), "{title} {lock:?}");
    moved.map(|()| claim).map_err(|(refusal, _)| refusal)
}

fn exported(title: u32, claim: Claim) -> Result<Lock, u32> {
    let mut lock = [7; RECORD_WORDS];
    let moved = export(title, &claim, &mut lock);
    assert!(moved.is_ok() || (lock == [7; RECORD_WORDS] && moved.unwrap_err().1 == 0), "{title} {claim:?}");
    moved.map(|()| lock).map_err(|(refusal, _)| refusal)
}

#[test]
fn locks_are_read_as_the_request_says() {
    for (lock, claim) in [
        ([1, 10, 5], [10, 15, 1]),
        ([2, 10, 1], [10, 11, 2]),
        ([1, 0, 20], [0, 20, 1]),
        ([2, 15, -5], [10, 15, 2]),
        ([1, 1, -1], [0, 1, 1]),
        ([2, 20, -20], [0, 20, 2]),
        ([1, 10, 0], [10, 20, 1]),
        ([2, 0, 0], [0, 20, 2]),
        ([1, 19, 0], [19, 20, 1]),
    ] {
        assert_eq!(imported(20, lock), Ok(claim), "{lock:?}");
    }
    let last = i64::from(LONGEST_TITLE);
    for lock in [[1, 0, last], [1, last, -last], [1, 0, 0]] {
        assert_eq!(imported(LONGEST_TITLE, lock), Ok([0, LONGEST_TITLE, 1]), "{lock:?}");
    }
    for lock in [[2, last - 1, 1], [2, last, -1], [2, last - 1, 0]] {
        assert_eq!(imported(LONGEST_TITLE, lock), Ok([LONGEST_TITLE - 1, LONGEST_TITLE, 2]), "{lock:?}");
    }
}

#[test]
fn a_lock_of_no_run_is_refused_12_before_all_else() {
    let past = 1 << 32;
    for [start, length] in [
        [-1, 1],
        [-1, 2],
        [-1, 22],
        [-5, 10],
        [-1, 0],
        [0, -1],
        [5, -6],
        [20, -21],
        [20, 0],
        [21, 0],
        [past, 0],
        [i64::MAX, 0],
        [i64::MIN, 0],
        [0, past],
        [past - 1, 1],
        [past, 1],
        [past, -1],
        [past + 5, 5],
        [5, past],
        [1, i64::MAX],
        [i64::MAX, 1],
        [i64::MAX, i64::MAX],
        [i64::MAX, -1],
        [i64::MAX, i64::MIN],
        [0, i64::MIN],
        [1, i64::MIN + 1],
        [i64::MIN, -1],
        [i64::MIN, i64::MIN],
        [i64::MIN, i64::MAX],
        [-1, i64::MAX],
    ] {
        for kind in [1, 2, 3, 0, i64::MIN] {
            assert_eq!(imported(20, [kind, start, length]), Err(12), "{kind} {start} {length}");
        }
    }
}

#[test]
fn an_unknown_type_is_refused_13_before_11() {
    for kind in [0, 3, -1, -2, 1 << 32 | 1, 1 << 32 | 2, 1 - (1 << 32), i64::MIN, i64::MIN + 1, i64::MAX] {
        for [start, length] in [[10, 5], [15, -5], [10, 0], [10, 11], [21, -1], [20, 1], [30, 5]] {
            assert_eq!(imported(20, [kind, start, length]), Err(13), "{kind} {start} {length}");
        }
    }
}

#[test]
fn a_lock_beyond_the_title_is_refused_11() {
    let last = i64::from(LONGEST_TITLE);
    for [start, length] in [[10, 11], [21, -1], [20, 1], [0, 21], [0, last], [last, -1], [last, -last], [last - 1, 1]] {
        for kind in [1, 2] {
            assert_eq!(imported(20, [kind, start, length]), Err(11), "{start} {length}");
        }
    }
}

#[test]
fn claims_are_written_as_the_request_says() {
    for (claim, lock) in [
        ([10, 15, 1], Ok([1, 10, 5])),
        ([10, 11, 2], Ok([2, 10, 1])),
        ([0, 19, 1], Ok([1, 0, 19])),
        ([0, 20, 2], Ok([2, 0, 0])),
        ([19, 20, 1], Ok([1, 19, 0])),
        ([10, 10, 1], Err(3)),
        ([11, 10, 1], Err(3)),
        ([0, 0, 9], Err(3)),
        ([21, 21, 9], Err(3)),
        ([LONGEST_TITLE, 30, 9], Err(3)),
        ([10, 21, 1], Err(11)),
        ([10, 21, 9], Err(11)),
        ([20, 21, 0], Err(11)),
        ([10, LONGEST_TITLE, 1], Err(11)),
        ([10, 15, 0], Err(4)),
        ([10, 20, 3], Err(4)),
        ([10, 15, 1 << 31 | 1], Err(4)),
        ([10, 15, u32::MAX], Err(4)),
    ] {
        assert_eq!(exported(20, claim), lock, "{claim:?}");
    }
    assert_eq!(exported(LONGEST_TITLE, [0, LONGEST_TITLE, 1]), Ok([1, 0, 0]));
    assert_eq!(exported(LONGEST_TITLE, [0, LONGEST_TITLE - 1, 1]), Ok([1, 0, 4_294_967_294]));
    assert_eq!(exported(LONGEST_TITLE - 1, [0, LONGEST_TITLE - 1, 1]), Ok([1, 0, 0]));
}

/// Every frame that a lock covers, one after the other, by POSIX's words: none lies outside of −40 to 40.
fn frames_of(title: i64, start: i64, length: i64) -> Vec<i64> {
    let covered = |frame: &i64| match length {
        0 => (start..title).contains(frame),
        1.. => (start..=start + length - 1).contains(frame),
        _ => (start + length..=start - 1).contains(frame),
    };
    (-40..=40).filter(covered).collect()
}

#[test]
fn import_is_what_counting_frame_by_frame_gives() {
    for title in 1..=8_u32 {
        for start in -11..=11 {
            for length in -11..=11 {
                let frames = frames_of(title.into(), start, length);
                for kind in -1..=4 {
                    let claim = match (frames.first(), frames.last()) {
                        (None, _) | (_, None) => Err(12),
                        (Some(&first), _) if first < 0 => Err(12),
                        _ if ![1, 2].contains(&kind) => Err(13),
                        (_, Some(&last)) if last >= title.into() => Err(11),
                        (Some(&first), Some(&last)) => Ok([first as u32, last as u32 + 1, kind as u32]),
                    };
                    assert_eq!(imported(title, [kind, start, length]), claim, "{title} {kind} {start} {length}");
                }
            }
        }
    }
}

/// By a sum that is asked for and not made where 64 bits do not hold it: it then lies beyond every title, or below 0.
fn by_checked_sum(title: u32, [kind, start, length]: Lock) -> Result<Claim, u32> {
    let (first, end) = match (length, start.checked_add(length)) {
        (0, _) => (start, i64::from(title)),
        (1.., Some(sum)) => (start, sum),
        (_, Some(sum)) => (sum, start),
        (_, None) => return Err(12),
    };
    match (u32::try_from(first), u32::try_from(end), u32::try_from(kind)) {
        (Ok(first), Ok(end), kind) if first < end => match kind {
            Ok(kind @ 1..=2) if end <= title => Ok([first, end, kind]),
            Ok(1..=2) => Err(11),
            _ => Err(13),
        },
        _ => Err(12),
    }
}

const TITLES: [u32; 7] = [1, 2, 20, 1 << 31, (1 << 31) + 1, LONGEST_TITLE - 1, LONGEST_TITLE];

/// The numbers where sums go wrong, those beside them, and all of them below 0.
fn edges(title: u32) -> Vec<i64> {
    let title = i64::from(title);
    let edges =
        [0, 2, title, title / 2, 1 << 31, 1 << 32, (1 << 32) - title, 1 << 33, 1 << 62, i64::MAX - title, i64::MAX];
    let all = edges.iter().flat_map(|&edge| [edge, edge.wrapping_neg()]).chain([i64::MIN]);
    all.flat_map(|edge| [-1, 0, 1].map(|by| edge.wrapping_add(by))).collect()
}

#[test]
fn import_of_every_pair_of_edges_is_what_checked_sums_give() {
    let mut seen = [0; 14];
    for title in TITLES {
        let edges = edges(title);
        for &start in &edges {
            // each edge is a length, and each is where a run is made to end or to start
            for length in edges.iter().flat_map(|&edge| [edge, edge.wrapping_sub(start)]) {
                for kind in [1, 2, 3, 1 << 32 | 1] {
                    let claim = by_checked_sum(title, [kind, start, length]);
                    assert_eq!(imported(title, [kind, start, length]), claim, "{title} {kind} {start} {length}");
                    seen[claim.err().unwrap_or(0) as usize] += 1;
                }
            }
        }
    }
    assert!([0, 11, 12, 13].iter().all(|&refusal| seen[refusal] > 1000), "{seen:?}");
}

/// The lock that covers the claim's frames: by counting them where the title is short, and else by the sum of its numbers.
#[test]
fn export_of_every_pair_of_edges_covers_the_frames_of_the_claim() {
    let mut seen = [0; 12];
    for title in TITLES {
        let words: Vec<u32> = edges(title).into_iter().filter_map(|edge| u32::try_from(edge).ok()).collect();
        for &start in &words {
            for &end in &words {
                for kind in [0, 1, 2, 3, u32::MAX] {
                    let lock = exported(title, [start, end, kind]);
                    let refusal = match lock {
                        _ if end <= start => 3,
                        _ if end > title => 11,
                        _ if ![1, 2].contains(&kind) => 4,
                        _ => 0,
                    };
                    assert_eq!(lock.err().unwrap_or(0), refusal, "{title} {start} {end} {kind}");
                    seen[refusal as usize] += 1;
                    if let Ok([lock_kind, lock_start, length]) = lock {
                        assert_eq!((lock_kind, lock_start), (kind.into(), start.into()));
                        assert_eq!(length == 0, end == title, "0 exactly where the claim ends at the title's end");
                        assert!(length == 0 || lock_start + length == end.into(), "{title} {start} {end}");
                    }
                }
            }
        }
    }
    assert!([0, 3, 4, 11].iter().all(|&refusal| seen[refusal] > 100), "{seen:?}");
    for (start, end) in (0..9).flat_map(|start| (0..9).map(move |end| (start, end))) {
        if let Ok([_, lock_start, length]) = exported(8, [start, end, 1]) {
            assert_eq!(frames_of(8, lock_start, length), (start.into()..end.into()).collect::<Vec<i64>>());
        }
    }
}

/// "Export then import gives the same claim, the other way the same frames", of lists as they are lent.
#[test]
fn each_way_undoes_the_other() {
    let mut random = Random::new(31);
    let mut moved = [0, 0];
    for _ in 0..20_000 {
        let Lists { title, claims, mut locks, .. } = some_export(&mut random);
        if export(title, &claims, &mut locks).is_ok() {
            let records = claims.len() / RECORD_WORDS * RECORD_WORDS;
            let mut again = vec![0; records];
            assert_eq!(import(title, &locks[..records], &mut again), Ok(()));
            assert_eq!(again, claims[..records]);
            moved[0] += u32::from(records > 0);
        }
        let Lists { title, mut claims, locks, .. } = some_import(&mut random);
        if import(title, &locks, &mut claims).is_ok() {
            let records = locks.len() / RECORD_WORDS * RECORD_WORDS;
            let (mut written, mut again) = (vec![0; records], vec![0; records]);
            assert_eq!(export(title, &claims[..records], &mut written), Ok(()));
            assert_eq!(import(title, &written, &mut again), Ok(()));
            assert_eq!(again, claims[..records], "the same frames, and the same kind");
            assert!(written.chunks(RECORD_WORDS).all(|lock| lock[2] >= 0), "no length is below 0");
            moved[1] += u32::from(records > 0);
        }
    }
    assert!(moved.iter().all(|&lists| lists > 3_000), "{moved:?}");
}

/// An imported claim may be reserved, on tables of that title.
#[test]
fn what_is_imported_is_not_refused_by_reserve() {
    for title in TITLES {
        for (start, length) in
            edges(title).into_iter().flat_map(|start| edges(title).into_iter().map(move |l| (start, l)))
        {
            if let Ok([start, end, kind]) = imported(title, [2, start, length]) {
                let (mut nodes, mut seats) = Ordinary.fresh(1, 1, title);
                assert_eq!(Ordinary.reserve(&mut nodes, &mut seats, 0, start, end, kind), Ok(Answer::Node(1)));
            }
        }
    }
}

const GOOD: Lock = [1, 10, 5];
const TWELVE: Lock = [1, -1, 5];
const THIRTEEN: Lock = [3, 10, 5];
const ELEVEN: Lock = [2, 10, 11];

/// What import of these records into so many words gives, which are left as found if it is refused.
fn import_into(title: u32, records: &[Lock], rest: &[i64], room: usize) -> (library::Moved, Vec<u32>) {
    let locks = [records.concat().as_slice(), rest].concat();
    let mut claims = vec![7; room];
    let moved = library::import(title, &locks, &mut claims);
    assert!(moved.0 == 0 || claims == vec![7; room], "{moved:?} {claims:?}");
    assert!(moved.0 != 0 || moved == (0, 0));
    (moved, claims)
}

fn export_into(title: u32, records: &[Claim], rest: &[u32], room: usize) -> (library::Moved, Vec<i64>) {
    let claims = [records.concat().as_slice(), rest].concat();
    let mut locks = vec![7; room];
    let moved = library::export(title, &claims, &mut locks);
    assert!(moved.0 == 0 || locks == vec![7; room], "{moved:?} {locks:?}");
    assert!(moved.0 != 0 || moved == (0, 0));
    (moved, locks)
}

#[test]
fn the_first_bad_record_decides_by_its_place() {
    for (records, refusal, place) in [
        (&[TWELVE, GOOD, GOOD][..], 12, 0),
        (&[GOOD, TWELVE, GOOD], 12, 1),
        (&[GOOD, GOOD, TWELVE], 12, 2),
        (&[GOOD, THIRTEEN, TWELVE], 13, 1),
        (&[GOOD, TWELVE, THIRTEEN], 12, 1),
        (&[ELEVEN, THIRTEEN, TWELVE], 11, 0),
        (&[GOOD, ELEVEN, TWELVE], 11, 1),
        (&[TWELVE, ELEVEN, ELEVEN], 12, 0),
    ] {
        for room in [0, 2, 3, 5, 6, 8, 9, 10] {
            assert_eq!(import_into(20, records, &[], room).0, (refusal, place), "{records:?} {room}");
        }
    }
    let (good, three, eleven, four) = ([10, 15, 1], [10, 10, 1], [10, 21, 1], [10, 15, 9]);
    for (records, refusal, place) in [
        (&[three, good][..], 3, 0),
        (&[good, good, three], 3, 2),
        (&[good, eleven, three], 11, 1),
        (&[good, four, eleven, three], 4, 1),
        (&[four, three], 4, 0),
        (&[eleven, four], 11, 0),
    ] {
        for room in [0, 2, 3, 5, 6, 11, 12, 13] {
            assert_eq!(export_into(20, records, &[], room).0, (refusal, place), "{records:?} {room}");
        }
    }
}

#[test]
fn a_title_of_no_frames_is_refused_first() {
    for (records, room) in [(&[][..], 0), (&[GOOD][..], 3), (&[GOOD], 0), (&[GOOD, TWELVE], 6), (&[THIRTEEN], 9)] {
        assert_eq!(import_into(0, records, &[], room).0, (3, 0), "{records:?} {room}");
    }
    for (records, room) in [(&[][..], 0), (&[[0, 1, 1]][..], 3), (&[[0, 1, 1]], 0), (&[[0, 1, 1], [1, 1, 1]], 6)] {
        assert_eq!(export_into(0, records, &[], room).0, (3, 0), "{records:?} {room}");
    }
}

#[test]
fn a_list_too_short_is_refused_last_and_a_rest_is_no_record() {
    for rest in [&[][..], &[3], &[1, -1]] {
        for room in 0..6 {
            assert_eq!(import_into(20, &[GOOD, GOOD], rest, room).0, (9, 0), "{room}");
        }
        let enough = [10, 15, 1, 10, 15, 1, 7, 7, 7, 7];
        for room in 6..=10 {
            assert_eq!(import_into(20, &[GOOD, GOOD], rest, room), ((0, 0), enough[..room].to_vec()));
        }
        for room in 0..4 {
            assert_eq!(import_into(20, &[], rest, room), ((0, 0), vec![7; room]));
        }
    }
    for rest in [&[][..], &[9], &[9, 9]] {
        for room in 0..6 {
            assert_eq!(export_into(20, &[[0, 1, 1], [2, 20, 2]], rest, room).0, (9, 0), "{room}");
        }
        let enough = [1, 0, 1, 2, 2, 0, 7, 7, 7, 7];
        for room in 6..=10 {
            assert_eq!(export_into(20, &[[0, 1, 1], [2, 20, 2]], rest, room), ((0, 0), enough[..room].to_vec()));
        }
        for room in 0..4 {
            assert_eq!(export_into(20, &[], rest, room), ((0, 0), vec![7; room]));
        }
    }
}

#[test]
fn the_lists_of_a_seed_meet_all_that_they_can() {
    let mut random = Random::new(1);
    let mut tally = Tally::new(Ordinary);
    for _ in 0..100 {
        tally.count_lists(&mut random);
    }
    for name in names() {
        assert!(tally.of(&name) >= 10, "{name}");
    }
}

/// Lists on which machines differ are shown with as few records and as small numbers as still differ.
#[test]
fn lists_are_shrunk_to_what_is_wrong() {
    let mut random = Random::new(33);
    let has_negative = |lists: &Lists| lists.locks.chunks_exact(RECORD_WORDS).any(|lock| lock[2] < -5);
    let mut shrunk = 0;
    for lists in (0..200).map(|_| some_import(&mut random)).filter(|lists| has_negative(lists)) {
        let smallest = shrink_lists(lists, has_negative);
        assert_eq!((smallest.way, smallest.title, smallest.locks.as_slice()), (Way::Import, 0, &[0, 0, -6][..]));
        assert_eq!(smallest.claims, []);
        shrunk += 1;
    }
    assert!(shrunk > 50, "{shrunk}");
}
