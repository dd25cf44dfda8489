//! Which stores to the two tables a call may make, by documents 01 and 02, worked out from the tables before and after it;
//! and whether those that a watcher sees are such. 02: "The coordinator's memory page is mirrored to a standby on every store."

use crate::driver::{make, outcome, refusal, shared_found, Call, Case, Library};
use crate::library_of;
use crate::machine::Profile::{Ordinary, Sheet};
use crate::machine::*;
use crate::stores::{Store, Table, Watcher};
use crate::tables::{reached, Tables};
use std::ops::Range;

/// What a call gave back and left in the tables, and the stores that it made.
pub struct Watched {
    pub answer: u64,
    pub tables: Tables,
    pub stores: Vec<Store>,
}

pub fn watched(watcher: &mut Watcher, library: &Library, case: &Case) -> Watched {
    let mut tables = case.tables.clone();
    let calls = library.calls(tables.profile);
    let mut rows = if let Call::Board { rows } = &case.call { rows.clone() } else { vec![] };
    let mut shared = shared_found(&case.call);
    let (answer, stores) = watcher.watch(&mut tables.nodes, &mut tables.seats, |nodes, seats| {
        make(calls, &case.call, nodes, seats, &mut rows, &mut 0, &mut shared)
    });
    Watched { answer, tables, stores }
}

/// A word of the node table, and what is stored there.
type Link = (usize, u32);

/// What a call may store, and nothing else.
#[derive(Default)]
struct Allowed {
    /// words that it may store as often as it likes, or not at all
    nodes: Vec<Range<usize>>,
    seats: Vec<Range<usize>>,
    /// links that it must store, each once, in this order
    links: Vec<Link>,
}

fn words(first: usize, count: usize) -> Range<usize> {
    first..first + count
}

fn one_word(word: usize) -> Range<usize> {
    words(word, 1)
}

fn words_of_seat(profile: Profile, seat: u32) -> Range<usize> {
    words(profile.seat_words() * seat as usize, profile.seat_words())
}

/// The words of a seat that is there.
fn seat(tables: &Tables, number: u32) -> &[u32] {
    &tables.seats[words_of_seat(tables.profile, number)]
}

/// "A node is free if it is not on the list and cannot be reached by following next from any other seat's own, prev or cur."
fn some_node_is_free(tables: &Tables, asking: u32) -> bool {
    let mut others = tables.seats.clone();
    others[words_of_seat(tables.profile, asking)].fill(0);
    reached(tables.profile, &tables.nodes, &others).len() < tables.each_node().len()
}

/// "Head and the unmarked listed nodes then link to the next unmarked one; marked nodes keep their next." 02: "Store only
/// the links that differ." These, from the head on.
fn links_that_differ(Tables { profile, nodes, .. }: &Tables) -> Vec<Link> {
    let unmarked: Vec<u32> = profile.listed(nodes).filter(|&node| !profile.marked(nodes, node)).collect();
    let links = std::iter::once(HEAD).chain(unmarked.iter().map(|&node| profile.link(node)));
    let then = unmarked.iter().copied().chain([0]);
    links.zip(then).filter(|&(link, then)| nodes[link] != then).collect()
}

/// "The node gets the claim, next 0, mark 0." If none was free, "the marked nodes on the list are first taken out". 02: the
/// seat gets phase 7 and own; prev and cur, which are to be 0, are 0 already.
fn fetch(tables: &Tables, seat: u32, node: u32) -> Allowed {
    let profile = tables.profile;
    let links = if some_node_is_free(tables, seat) { vec![] } else { links_that_differ(tables) };
    let phase_and_own = words(words_of_seat(profile, seat).start + PHASE, 2);
    Allowed { nodes: vec![words(profile.place(node, START), NODE_WORDS)], seats: vec![phase_and_own], links }
}

/// 02: "Enter reads the head and goes to phase 1": the seat gets that phase, and cur; no node changes.
fn enter(profile: Profile, seat: u32) -> Allowed {
    let phase_and_cur = [PHASE, CUR].map(|field| one_word(words_of_seat(profile, seat).start + field));
    Allowed { seats: phase_and_cur.to_vec(), ..Allowed::default() }
}

fn count_of(tables: &Tables, node: u32) -> usize {
    if tables.nodes[tables.profile.place(node, KIND)] == READS {
        READERS
    } else {
        WRITERS
    }
}

/// The words of the node table that a step stores which does not fetch. Insert: "own's next becomes cur, the link becomes own".
/// Unlink, of a marked cur: "if prev is 0 or unmarked, and its link is cur, that link becomes cur's next". Hold counts.
/// Withdraw: "own is marked". 02, of a sheet: "a claim holds as soon as it is linked", and it writes.
fn stored_by_step(tables: &Tables, before: &[u32], phase_after: u32) -> Vec<usize> {
    let Tables { profile, nodes, .. } = tables;
    let (own, prev, cur) = (before[OWN], before[PREV], before[CUR]);
    let is_marked = |node: u32| node != 0 && profile.marked(nodes, node);
    let unlinks = is_marked(cur) && !is_marked(prev) && nodes[profile.link(prev)] == cur;
    match (before[PHASE], phase_after) {
        (WALKING, VALIDATING) => vec![profile.place(own, NEXT), profile.link(prev)],
        (WALKING, HOLDING) => vec![profile.place(own, NEXT), profile.link(prev), WRITERS],
        (WALKING, WALKING) | (VALIDATING, VALIDATING) if unlinks => vec![profile.link(prev)],
        (VALIDATING, HOLDING) => vec![count_of(tables, own)],
        (VALIDATING, WITHDRAWN) => vec![profile.place(own, MARK)],
        _ => vec![],
    }
}

fn step(before: &Tables, number: u32, after: &Tables) -> Allowed {
    let (words_before, words_after) = (seat(before, number), seat(after, number));
    match words_before[PHASE] {
        WITHDRAWN => return fetch(before, number, words_after[OWN]),
        RESERVED => return enter(before.profile, number),
        _ => {}
    }
    let stored = stored_by_step(before, words_before, words_after[PHASE]);
    Allowed {
        nodes: stored.into_iter().map(one_word).collect(),
        seats: vec![words_of_seat(before.profile, number)],
        ..Allowed::default()
    }
}

/// "Release: own is marked and the seat idle." 02: it keeps the counts.
fn release(tables: &Tables, number: u32) -> Allowed {
    let own = seat(tables, number)[OWN];
    let stored = [tables.profile.place(own, MARK), count_of(tables, own)];
    let seats = vec![words_of_seat(tables.profile, number)];
    Allowed { nodes: stored.map(one_word).to_vec(), seats, ..Allowed::default() }
}

/// A run of one step is that step. Of a longer one it is only asked that the seats are those it names, and that the title
/// stays: that is stored by clear alone; and on a sheet the count of readers, which is 0.
fn run(before: &Tables, entries: &[u32], after: &Tables) -> Allowed {
    let profile = before.profile;
    let mut nodes = vec![one_word(HEAD), one_word(WRITERS), profile.before_nodes()..before.nodes.len()];
    if profile == Ordinary {
        nodes.push(HEAD..TITLE);
    }
    match entries {
        &[seat] => step(before, seat, after),
        _ => Allowed {
            nodes,
            seats: entries.iter().map(|&seat| words_of_seat(profile, seat)).collect(),
            ..Allowed::default()
        },
    }
}

/// What a call may store that answers and leaves what it should.
fn allowed(Case { tables, call }: &Case, watched: &Watched) -> Allowed {
    if refusal(call, watched.answer).is_some() {
        return Allowed::default();
    }
    match call {
        Call::Clear { .. } => {
            let whole = |table: &[u32]| vec![words(0, table.len())];
            Allowed { nodes: whole(&tables.nodes), seats: whole(&tables.seats), ..Allowed::default() }
        }
        &Call::Reserve { seat, .. } => fetch(tables, seat, watched.answer as u32),
        &Call::Enter { seat } => enter(tables.profile, seat),
        &Call::Step { seat, .. } => step(tables, seat, &watched.tables),
        &Call::Release { seat } => release(tables, seat),
        Call::Run { entries, .. } => run(tables, entries, &watched.tables),
        Call::Board { .. } | Call::FreeCount => Allowed::default(),
    }
}

/// Whether a store lies within words that may be stored.
fn within(store: &Store, allowed: &Allowed) -> bool {
    let ranges = if store.table == Table::Nodes { &allowed.nodes } else { &allowed.seats };
    let end = store.changed_to.max(store.word + 1);
    ranges.iter().any(|range| range.start <= store.word && end <= range.end)
}

/// The first store that the call may not make, or the link that it did not store, if there is one.
fn wrong_store(stores: &[Store], allowed: &Allowed) -> Option<String> {
    let mut links = allowed.links.iter();
    for store in stores.iter().filter(|store| !within(store, allowed)) {
        let next = links.next();
        let is_next = store.table == Table::Nodes
            && next == Some(&(store.word, store.value))
            && store.changed_to == store.word + 1;
        if !is_next {
            let due = next.map_or("nothing of the kind".to_string(), link_text);
            return Some(format!("{store}, where {due} was due"));
        }
    }
    links.next().map(|link| format!("{} was due", link_text(link)))
}

fn link_text((word, value): &Link) -> String {
    format!("the link nodes[{word}] = {value}")
}

/// Told by who makes the calls, since the tables do not show it.
pub const TAKEN_OUT_OF_REACHED: &str = "taken out: in tables reached from fresh ones";

/// The kinds of calls, each of which must be met: a watcher of calls that store nothing says nothing. These are of both
/// profiles.
const KINDS: [&str; 36] = [
    "clear",
    "clear, refused",
    "reserve, a node is free",
    "reserve, a node is free, and marked ones stay listed",
    "reserve, marked nodes are taken out",
    "reserve, refused 8, no listed node is marked",
    "reserve, refused 8, marked nodes are listed",
    "reserve, refused otherwise",
    "enter, no node is listed",
    "enter, a node is listed",
    "enter, refused 14",
    "enter, refused otherwise",
    "step in phase 1",
    "step in phase 2",
    "step in phase 5",
    "step in phase 7",
    "step, refused otherwise",
    "release",
    "release, refused",
    "run of one entry",
    "run of one entry in phase 7",
    "run of several entries",
    "run that makes no step",
    "board",
    "board, refused",
    "free count",
    "free count, refused",
    "taken out: at the head",
    "taken out: in the middle",
    "taken out: at the end",
    "taken out: all that is listed",
    "taken out: three nodes or more side by side",
    "taken out: at several places",
    TAKEN_OUT_OF_REACHED,
    "links stored: one",
    "links stored: several",
];

/// Those of phases that a sheet has not.
const ORDINARY_KINDS: [&str; 6] = [
    "step in phase 3",
    "step in phase 4",
    "step in phase 6, a node is free",
    "step in phase 6, marked nodes are taken out",
    "step in phase 6, refused 8",
    "run of one entry, marked nodes are taken out",
];

/// Those of a claim that holds as soon as it is linked.
const SHEET_KINDS: [&str; 2] = ["step in phase 1 that links and holds", "run of one entry that links and holds"];

pub fn call_kinds(profile: Profile) -> impl Iterator<Item = &'static str> {
    let own: &'static [&'static str] = match profile {
        Ordinary => &ORDINARY_KINDS,
        Sheet => &SHEET_KINDS,
    };
    KINDS.iter().chain(own).copied()
}

fn some_listed_is_marked(Tables { profile, nodes, .. }: &Tables) -> bool {
    profile.listed(nodes).any(|node| profile.marked(nodes, node))
}

fn call_kind(case: &Case, after: &Tables, refusal: Option<u32>, takes_out: bool) -> &'static str {
    let Case { tables, call } = case;
    let phases = |number| (seat(tables, number)[PHASE], seat(after, number)[PHASE]);
    match (call, refusal) {
        (Call::Clear { .. }, None) => "clear",
        (Call::Clear { .. }, _) => "clear, refused",
        (Call::Reserve { .. }, None) if takes_out => "reserve, marked nodes are taken out",
        (Call::Reserve { .. }, None) if some_listed_is_marked(tables) => {
            "reserve, a node is free, and marked ones stay listed"
        }
        (Call::Reserve { .. }, None) => "reserve, a node is free",
        (Call::Reserve { .. }, Some(8)) if some_listed_is_marked(tables) => {
            "reserve, refused 8, marked nodes are listed"
        }
        (Call::Reserve { .. }, Some(8)) => "reserve, refused 8, no listed node is marked",
        (Call::Reserve { .. }, _) => "reserve, refused otherwise",
        (Call::Enter { .. }, None) if tables.nodes[HEAD] == 0 => "enter, no node is listed",
        (Call::Enter { .. }, None) => "enter, a node is listed",
        (Call::Enter { .. }, Some(14)) => "enter, refused 14",
        (Call::Enter { .. }, _) => "enter, refused otherwise",
        (Call::Step { .. }, None) if takes_out => "step in phase 6, marked nodes are taken out",
        (&Call::Step { seat, .. }, None) => match phases(seat) {
            (WALKING, HOLDING) => "step in phase 1 that links and holds",
            (WALKING, _) => "step in phase 1",
            (WAITING_TO_ENTER, _) => "step in phase 2",
            (VALIDATING, _) => "step in phase 3",
            (READER_WAITING, _) => "step in phase 4",
            (HOLDING, _) => "step in phase 5",
            (WITHDRAWN, _) => "step in phase 6, a node is free",
            _ => "step in phase 7",
        },
        (Call::Step { .. }, Some(8)) => "step in phase 6, refused 8",
        (Call::Step { .. }, _) => "step, refused otherwise",
        (Call::Release { .. }, None) => "release",
        (Call::Release { .. }, _) => "release, refused",
        (Call::Run { .. }, Some(_)) => "run that makes no step",
        (Call::Run { .. }, _) if takes_out => "run of one entry, marked nodes are taken out",
        (Call::Run { entries, .. }, _) if entries.len() == 1 => match phases(entries[0]) {
            (WALKING, HOLDING) => "run of one entry that links and holds",
            (RESERVED, _) => "run of one entry in phase 7",
            _ => "run of one entry",
        },
        (Call::Run { .. }, _) => "run of several entries",
        (Call::Board { .. }, None) => "board",
        (Call::Board { .. }, _) => "board, refused",
        (Call::FreeCount, None) => "free count",
        (Call::FreeCount, _) => "free count, refused",
    }
}

/// Where on the list the nodes stood that were taken out, and how many links differ.
fn kinds_of_taking_out(Tables { profile, nodes, .. }: &Tables, link_count: usize) -> Vec<&'static str> {
    let marks: Vec<bool> = profile.listed(nodes).map(|node| profile.marked(nodes, node)).collect();
    let first_unmarked = marks.iter().position(|marked| !marked);
    let last_unmarked = marks.iter().rposition(|marked| !marked);
    let in_the_middle = match (first_unmarked, last_unmarked) {
        (Some(first), Some(last)) => marks[first..last].contains(&true),
        _ => false,
    };
    let runs = || marks.split(|marked| !marked).filter(|run| !run.is_empty());
    let all = first_unmarked.is_none();
    let kinds = [
        ("taken out: at the head", !all && marks[0]),
        ("taken out: in the middle", in_the_middle),
        ("taken out: at the end", !all && marks[marks.len() - 1]),
        ("taken out: all that is listed", all),
        ("taken out: three nodes or more side by side", runs().any(|run| run.len() > 2)),
        ("taken out: at several places", runs().count() > 1),
        ("links stored: one", link_count == 1),
        ("links stored: several", link_count > 1),
    ];
    kinds.into_iter().filter(|(_, met)| *met).map(|(kind, _)| kind).collect()
}

/// What a call that was watched was, and what was wrong with it, if anything.
pub struct Judged {
    pub kinds: Vec<&'static str>,
    pub refused: bool,
    /// the links that taking nodes out should have stored
    pub links: usize,
    pub wrong: Option<String>,
}

/// What a call answers and leaves must be what the second machine answers and leaves. That is looked at first, since what it
/// may store is worked out of it.
pub fn judge(case: &Case, watched: &Watched) -> Judged {
    let second = outcome(&library_of!(crate::library), case);
    let tables_alike = watched.tables.nodes == second.nodes.words() && watched.tables.seats == second.seats.words();
    if watched.answer != second.answer || !tables_alike {
        let wrong = Some("it does not answer or leave what the second machine does".to_string());
        return Judged { kinds: vec![], refused: false, links: 0, wrong };
    }
    let allowed = allowed(case, watched);
    let refusal = refusal(&case.call, watched.answer);
    let takes_out = !allowed.links.is_empty();
    let mut kinds = vec![call_kind(case, &watched.tables, refusal, takes_out)];
    if takes_out {
        kinds.extend(kinds_of_taking_out(&case.tables, allowed.links.len()));
    }
    let wrong = wrong_store(&watched.stores, &allowed);
    Judged { kinds, refused: refusal.is_some(), links: allowed.links.len(), wrong }
}
