//! Which stores import and export may make to the two lists that they are lent, and whether those that a watcher sees are
//! such. 01: "An added refusal, too, leaves every lent table, list and buffer as found": it stores nothing, not even what
//! stands there already. The list that is moved is never stored to, nor is what lies behind the records in the other.

use crate::driver::Library;
use crate::library::{self, Moved};
use crate::lists::{Lists, Way};
use crate::posix::RECORD_WORDS;
use crate::stores::{Store, Table, Watcher};

/// What a call gave back and left in the lists, and the stores that it made. The claims lie where the watcher has the nodes,
/// and the locks, word by word of 32 bits, where it has the seats.
pub struct WatchedLists {
    pub moved: Moved,
    pub claims: Vec<u32>,
    pub locks: Vec<i64>,
    pub stores: Vec<Store>,
}

/// Words of 32 bits in a number of a lock.
const HALVES: usize = 2;

/// Whether the lists have room where the watcher has the tables.
pub fn can_be_watched(lists: &Lists) -> bool {
    lists.claims.len() <= 2048 && HALVES * lists.locks.len() <= 1024
}

/// The numbers of locks in words of 32 bits, the lower half first, as they lie on x86-64.
fn halves(locks: &[i64]) -> Vec<u32> {
    locks.iter().flat_map(|&number| [number as u32, (number >> 32) as u32]).collect()
}

fn from_halves(words: &[u32]) -> Vec<i64> {
    words.chunks_exact(HALVES).map(|half| i64::from(half[0]) | i64::from(half[1]) << 32).collect()
}

pub fn watched_lists(watcher: &mut Watcher, library: &Library, lists: &Lists) -> WatchedLists {
    let mut claims = lists.claims.clone();
    let mut words = halves(&lists.locks);
    let (moved, stores) = watcher.watch(&mut claims, &mut words, |claims, words| {
        // any bits are a number, and the words lie on pages of their own, so none is left over at either end
        let (before, locks, behind) = unsafe { words.align_to_mut::<i64>() };
        assert!(before.is_empty() && behind.is_empty(), "numbers of 64 bits");
        match lists.way {
            Way::Import => (library.import)(lists.title, locks, claims),
            Way::Export => (library.export)(lists.title, claims, locks),
        }
    });
    WatchedLists { moved, claims, locks: from_halves(&words), stores }
}

/// The kinds of calls on lists, each of which must be met.
pub const LIST_KINDS: [&str; 14] = [
    "import",
    "import of no record",
    "import, refused 3",
    "import, refused 12",
    "import, refused 13",
    "import, refused 11",
    "import, refused 9",
    "export",
    "export of no record",
    "export, refused 3, the title",
    "export, refused 3, a claim",
    "export, refused 11",
    "export, refused 4",
    "export, refused 9",
];

fn kind(lists: &Lists, (refusal, _): Moved) -> &'static str {
    match (lists.way, refusal) {
        (Way::Import, 0) if lists.records() == 0 => "import of no record",
        (Way::Import, 0) => "import",
        (Way::Import, 3) => "import, refused 3",
        (Way::Import, 12) => "import, refused 12",
        (Way::Import, 13) => "import, refused 13",
        (Way::Import, 11) => "import, refused 11",
        (Way::Import, _) => "import, refused 9",
        (Way::Export, 0) if lists.records() == 0 => "export of no record",
        (Way::Export, 0) => "export",
        (Way::Export, 3) if lists.title == 0 => "export, refused 3, the title",
        (Way::Export, 3) => "export, refused 3, a claim",
        (Way::Export, 11) => "export, refused 11",
        (Way::Export, 4) => "export, refused 4",
        (Way::Export, _) => "export, refused 9",
    }
}

/// The table that is stored to, and how many of its words, if a call is accepted.
fn allowed(lists: &Lists) -> (Table, usize) {
    let words = RECORD_WORDS * lists.records();
    match lists.way {
        Way::Import => (Table::Nodes, words),
        Way::Export => (Table::Seats, HALVES * words),
    }
}

fn store_text(store: &Store) -> String {
    let (name, width) = if store.table == Table::Nodes { ("claims", 1) } else { ("locks", HALVES) };
    format!("a store to {name}[{}], where none was due", store.word / width)
}

/// What a call on lists was, and what was wrong with it, if anything: what it gives back and leaves must be what the second
/// machine does, and its stores those that are allowed.
pub fn judge_lists(lists: &Lists, watched: &WatchedLists) -> (&'static str, Option<String>) {
    let (mut claims, mut locks) = (lists.claims.clone(), lists.locks.clone());
    let moved = match lists.way {
        Way::Import => library::import(lists.title, &lists.locks, &mut claims),
        Way::Export => library::export(lists.title, &lists.claims, &mut locks),
    };
    let kind = kind(lists, moved);
    if (watched.moved, &watched.claims, &watched.locks) != (moved, &claims, &locks) {
        return (kind, Some("it does not give back or leave what the second machine does".to_string()));
    }
    let (table, words) = allowed(lists);
    let due = |store: &&Store| moved.0 == 0 && store.table == table && store.changed_to.max(store.word + 1) <= words;
    (kind, watched.stores.iter().find(|store| !due(store)).map(store_text))
}
