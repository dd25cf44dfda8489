//! What is said of stores to lists that were made up, and of those that the watcher sees, where there is one.

use crate::library_of;
use crate::lists::{Lists, Way};
use crate::stores::{Store, Table, Watcher};
use crate::storing_lists::{judge_lists, watched_lists, WatchedLists};

/// Two records in a title of so many frames, and room for three.
fn two_records(way: Way, title: u32) -> Lists {
    let (locks, claims) = match way {
        Way::Import => (vec![1, 10, 5, 2, 15, -5], vec![7; 9]),
        Way::Export => (vec![7; 9], vec![10, 15, 1, 10, 20, 2]),
    };
    Lists { way, title, locks, claims }
}

/// What is wrong with these stores, if the call gives back and leaves what it should.
fn wrong(lists: &Lists, stores: &[Store]) -> Option<String> {
    let library = library_of!(crate::library);
    let (mut claims, mut locks) = (lists.claims.clone(), lists.locks.clone());
    let moved = match lists.way {
        Way::Import => (library.import)(lists.title, &lists.locks, &mut claims),
        Way::Export => (library.export)(lists.title, &lists.claims, &mut locks),
    };
    judge_lists(lists, &WatchedLists { moved, claims, locks, stores: stores.to_vec() }).1
}

fn to_claims(word: usize, changed_to: usize) -> Store {
    Store { table: Table::Nodes, word, value: 0, changed_to }
}

/// A word of 32 bits, of which a lock has six.
fn to_locks(word: usize, changed_to: usize) -> Store {
    Store { table: Table::Seats, word, value: 0, changed_to }
}

#[test]
fn stores_to_the_records_are_right() {
    let (import, export) = (two_records(Way::Import, 20), two_records(Way::Export, 20));
    for stores in [&[][..], &[to_claims(0, 1), to_claims(5, 6), to_claims(5, 5)], &[to_claims(0, 6)]] {
        assert_eq!(wrong(&import, stores), None, "{stores:?}");
    }
    for stores in [&[][..], &[to_locks(0, 2), to_locks(10, 12), to_locks(11, 11)], &[to_locks(0, 12)]] {
        assert_eq!(wrong(&export, stores), None, "{stores:?}");
    }
}

#[test]
fn stores_behind_the_records_and_to_what_is_moved_are_wrong() {
    for store in [to_claims(6, 7), to_claims(6, 6), to_claims(5, 7), to_claims(8, 8), to_locks(0, 0), to_locks(3, 4)] {
        let text = wrong(&two_records(Way::Import, 20), &[to_claims(0, 1), store]);
        assert!(text.is_some(), "{store}");
    }
    for store in [to_locks(12, 13), to_locks(12, 12), to_locks(11, 13), to_claims(0, 0), to_claims(5, 6)] {
        let text = wrong(&two_records(Way::Export, 20), &[to_locks(0, 2), store]);
        assert!(text.is_some(), "{store}");
    }
    let text = wrong(&two_records(Way::Export, 20), &[to_locks(13, 14)]);
    assert_eq!(text.as_deref(), Some("a store to locks[6], where none was due"));
}

#[test]
fn any_store_of_a_refused_call_is_wrong() {
    for way in [Way::Import, Way::Export] {
        for title in [0, 14] {
            let lists = two_records(way, title);
            assert_eq!(wrong(&lists, &[]), None);
            for store in [to_claims(0, 1), to_claims(0, 0), to_locks(0, 1), to_locks(0, 0)] {
                assert!(wrong(&lists, &[store]).is_some(), "{way:?} {title} {store}");
            }
        }
    }
}

#[test]
fn what_the_second_machine_does_not_do_is_wrong() {
    let lists = two_records(Way::Import, 20);
    let (claims, locks) = (lists.claims.clone(), lists.locks.clone());
    assert!(judge_lists(&lists, &WatchedLists { moved: (0, 0), claims, locks, stores: vec![] }).1.is_some());
    let (claims, locks) = (vec![10, 15, 1, 10, 15, 2, 7, 7, 7], lists.locks.clone());
    for (moved, right) in [((0, 0), true), ((9, 0), false), ((0, 1), false)] {
        let watched = WatchedLists { moved, claims: claims.clone(), locks: locks.clone(), stores: vec![] };
        assert_eq!(judge_lists(&lists, &watched).1.is_none(), right, "{moved:?}");
    }
}

/// Numbers whose halves differ cross to the watched pages and back.
#[test]
fn the_watcher_sees_what_is_moved() {
    let library = library_of!(crate::library);
    let high = -0x1234_5678_9abc;
    let cases = [
        (Lists { locks: vec![1, 10, 5, high, high, high], ..two_records(Way::Import, 20) }, (12, 1), 0),
        (Lists { locks: vec![2, 15, -5, high, high], ..two_records(Way::Import, 20) }, (0, 0), 1),
        (Lists { locks: vec![high; 7], ..two_records(Way::Export, 20) }, (0, 0), 2),
        (Lists { locks: vec![high; 5], ..two_records(Way::Export, 20) }, (9, 0), 0),
    ];
    if let Some(mut watcher) = Watcher::new() {
        for (lists, moved, records) in cases {
            let watched = watched_lists(&mut watcher, &library, &lists);
            assert_eq!(watched.moved, moved);
            assert_eq!(judge_lists(&lists, &watched).1, None);
            assert_eq!(watched.stores.is_empty(), records == 0);
            assert_eq!(watched.locks.len(), lists.locks.len());
            assert_eq!(watched.locks.last(), Some(&high), "what lies behind the records, or is moved, stays");
        }
    }
}
