//! Sound tables of either profile with one clause of sound shape broken and no other: a word of a node or of a seat, one of the
//! two counts, or the title.

use crate::machine::Profile::{Ordinary, Sheet};
use crate::machine::*;
use crate::random::Random;
use crate::tables::{many_holders, phases, phases_with_names, reached, sound_with, sound_words, waiting_phases};
use crate::tables::{Tables, CLOSE};
use std::collections::BTreeSet;

// A word of a node or of a seat

/// The nodes that have claims, and the one that is zeros.
const CLAIMS: [u32; 4] = [1, 2, 3, 4];
const ZERO_NODE: u32 = 5;

/// Sound words that have everything a damage asks for: the last node is zeros and the others have claims, two are listed and
/// two are not, and there is a seat in each phase.
fn ample(random: &mut Random, profile: Profile) -> Tables {
    let mut phases = phases(profile).to_vec();
    let first = random.below(phases.len() as u32);
    phases.rotate_left(first as usize);
    sound_with(random, profile, CLOSE, ZERO_NODE, &CLAIMS, 2, &phases)
}

impl Tables {
    fn node_word(&mut self, node: u32, field: usize) -> &mut u32 {
        &mut self.nodes[self.profile.place(node, field)]
    }

    /// A word of some node that has a claim, and one of the node that is zeros.
    fn claim_word(&mut self, random: &mut Random, field: usize) -> &mut u32 {
        self.node_word(random.pick(&CLAIMS), field)
    }

    fn zero_word(&mut self, field: usize) -> &mut u32 {
        self.node_word(ZERO_NODE, field)
    }

    fn seat_in(&mut self, phase: u32) -> &mut [u32] {
        let mut seats = self.seats.chunks_exact_mut(self.profile.seat_words());
        seats.find(|seat| seat[PHASE] == phase).expect("there is a seat in each phase")
    }

    /// A seat that is not idle, and one whose prev and cur may name nodes.
    fn some_under_way(&mut self, random: &mut Random) -> &mut [u32] {
        self.seat_in(random.pick(&phases(self.profile)[1..]))
    }

    fn some_with_names(&mut self, random: &mut Random) -> &mut [u32] {
        self.seat_in(random.pick(phases_with_names(self.profile)))
    }

    /// The claim of a node becomes a reader's.
    fn make_reader(&mut self, node: u32) {
        *self.node_word(node, KIND) = READS;
    }

    /// So does that of a node which a seat in this phase names.
    fn make_reader_at(&mut self, phase: u32, field: usize) {
        let node = self.seat_in(phase)[field];
        self.make_reader(node);
    }

    /// One of the nodes that have claims, listed or not.
    fn some_claim(&self, random: &mut Random, listed: bool) -> u32 {
        let list = reached(self.profile, &self.nodes, &[]);
        random.pick(&self.claims(|node| list.contains(&node) == listed))
    }
}

type Damage = (&'static str, fn(&mut Random, &mut Tables));

/// Each clause but those of the counts and the title, broken alone, as far as both profiles have it.
const DAMAGES: &[Damage] = &[
    ("no words for nodes", |_, tables| tables.nodes.clear()),
    ("a word too few before the nodes", |_, tables| tables.nodes.truncate(tables.profile.before_nodes() - 1)),
    ("no node", |_, tables| tables.nodes.truncate(tables.profile.before_nodes())),
    ("a word too few for the nodes", |_, tables| tables.nodes.truncate(tables.nodes.len() - 1)),
    ("a word too many for the nodes", |_, tables| tables.nodes.push(0)),
    ("257 nodes", |_, tables| tables.nodes.resize(tables.profile.before_nodes() + NODE_WORDS * 257, 0)),
    ("no seat", |_, tables| tables.seats.clear()),
    ("a word too few for the seats", |_, tables| tables.seats.truncate(tables.seats.len() - 1)),
    ("a word too many for the seats", |_, tables| tables.seats.push(0)),
    ("65 seats", |_, tables| tables.seats.resize(tables.profile.seat_words() * 65, 0)),
    ("kind 0 with a start", |_, tables| *tables.zero_word(START) = 1),
    ("kind 0 with an end", |_, tables| *tables.zero_word(END) = 1),
    ("kind 0 with a next", |_, tables| *tables.zero_word(NEXT) = 1),
    ("kind 0 with a mark", |_, tables| *tables.zero_word(MARK) = 1),
    ("kind 3", |random, tables| *tables.claim_word(random, KIND) = 3),
    ("kind 4294967295", |random, tables| *tables.claim_word(random, KIND) = u32::MAX),
    ("start at the end", |random, tables| {
        let node = random.pick(&CLAIMS);
        *tables.node_word(node, START) = *tables.node_word(node, END);
    }),
    ("end 0", |random, tables| *tables.claim_word(random, END) = 0),
    ("mark 2", |random, tables| *tables.claim_word(random, MARK) = 2),
    ("mark 4294967295", |random, tables| *tables.claim_word(random, MARK) = u32::MAX),
    ("next past N", |random, tables| *tables.claim_word(random, NEXT) = 6),
    ("next 4294967295", |random, tables| *tables.claim_word(random, NEXT) = u32::MAX),
    ("next at a node of zeros", |random, tables| *tables.claim_word(random, NEXT) = ZERO_NODE),
    ("head past N", |_, tables| tables.nodes[HEAD] = 6),
    ("head at a node of zeros", |_, tables| tables.nodes[HEAD] = ZERO_NODE),
    ("phase 8", |random, tables| tables.some_under_way(random)[PHASE] = 8),
    ("phase 8 for 7", |_, tables| tables.seat_in(RESERVED)[PHASE] = 8),
    ("phase 15", |random, tables| tables.some_under_way(random)[PHASE] = 15),
    ("phase 4294967295", |random, tables| tables.some_under_way(random)[PHASE] = u32::MAX),
    ("own past N", |random, tables| tables.some_under_way(random)[OWN] = 6),
    ("own at a node of zeros", |random, tables| tables.some_under_way(random)[OWN] = ZERO_NODE),
    ("own 0 while under way", |random, tables| tables.some_under_way(random)[OWN] = 0),
    ("prev past N", |random, tables| tables.some_with_names(random)[PREV] = 6),
    ("prev at a node of zeros", |random, tables| tables.some_with_names(random)[PREV] = ZERO_NODE),
    ("cur past N", |random, tables| tables.some_with_names(random)[CUR] = 6),
    ("cur at a node of zeros", |random, tables| tables.some_with_names(random)[CUR] = ZERO_NODE),
    ("idle with own", |_, tables| tables.seat_in(IDLE)[OWN] = 1),
    ("idle with prev", |_, tables| tables.seat_in(IDLE)[PREV] = 1),
    ("idle with cur", |_, tables| tables.seat_in(IDLE)[CUR] = 1),
    ("waiting to enter with cur 0", |_, tables| tables.seat_in(WAITING_TO_ENTER)[CUR] = 0),
    ("holding with prev", |_, tables| tables.seat_in(HOLDING)[PREV] = 1),
    ("holding with cur", |_, tables| tables.seat_in(HOLDING)[CUR] = 1),
    ("reserved with prev", |_, tables| tables.seat_in(RESERVED)[PREV] = 1),
    ("reserved with cur", |_, tables| tables.seat_in(RESERVED)[CUR] = 1),
    ("reserved with cur at the head", |_, tables| tables.seat_in(RESERVED)[CUR] = tables.nodes[HEAD]),
    ("reserved with own 0", |_, tables| tables.seat_in(RESERVED)[OWN] = 0),
    ("reserved with own past N", |_, tables| tables.seat_in(RESERVED)[OWN] = 6),
    ("reserved with own at a node of zeros", |_, tables| tables.seat_in(RESERVED)[OWN] = ZERO_NODE),
    ("idle but for phase 7", |_, tables| tables.seat_in(IDLE)[PHASE] = RESERVED),
    ("waiting but for phase 7", |random, tables| {
        let waiting = random.pick(waiting_phases(tables.profile));
        tables.seat_in(waiting)[PHASE] = RESERVED;
    }),
    ("the first listed node links to itself", |_, tables| {
        let first = tables.nodes[HEAD];
        *tables.node_word(first, NEXT) = first;
    }),
    ("the second listed node links to the first", |_, tables| {
        let first = tables.nodes[HEAD];
        let second = *tables.node_word(first, NEXT);
        *tables.node_word(second, NEXT) = first;
    }),
];

/// Clauses of phases that a sheet has not.
const ORDINARY_DAMAGES: &[Damage] = &[
    ("reader waiting with cur 0", |_, tables| tables.seat_in(READER_WAITING)[CUR] = 0),
    ("withdrawn with prev", |_, tables| tables.seat_in(WITHDRAWN)[PREV] = 1),
    ("withdrawn with cur", |_, tables| tables.seat_in(WITHDRAWN)[CUR] = 1),
];

/// What is damage on a sheet alone: each of these tables is sound where there are readers.
pub const SHEET_DAMAGES: &[Damage] = &[
    ("kind 1 in a listed node", |random, tables| tables.make_reader(tables.some_claim(random, true))),
    ("kind 1 in a node off the list", |random, tables| tables.make_reader(tables.some_claim(random, false))),
    ("kind 1 in a node that nothing names", |_, tables| {
        *tables.zero_word(END) = 1;
        tables.make_reader(ZERO_NODE);
    }),
    ("kind 1 in a marked node that nothing names", |_, tables| {
        *tables.zero_word(END) = 1;
        *tables.zero_word(MARK) = 1;
        tables.make_reader(ZERO_NODE);
    }),
    ("kind 1 in a walker's own node", |_, tables| tables.make_reader_at(WALKING, OWN)),
    ("kind 1 in a waiting claim's own node", |_, tables| tables.make_reader_at(WAITING_TO_ENTER, OWN)),
    ("kind 1 in a node that is waited at", |_, tables| tables.make_reader_at(WAITING_TO_ENTER, CUR)),
    ("kind 1 at prev", |random, tables| {
        let prev = random.pick(&CLAIMS);
        tables.some_with_names(random)[PREV] = prev;
        tables.make_reader(prev);
    }),
    ("kind 1 in a held node", |_, tables| tables.make_reader_at(HOLDING, OWN)),
    ("kind 1 in a reserved node", |_, tables| tables.make_reader_at(RESERVED, OWN)),
    ("kind 1 in every node", |_, tables| CLAIMS.into_iter().for_each(|node| tables.make_reader(node))),
    ("phase 3 for 1", |_, tables| tables.seat_in(WALKING)[PHASE] = VALIDATING),
    ("phase 3 for 5", |_, tables| tables.seat_in(HOLDING)[PHASE] = VALIDATING),
    ("phase 3 for 7", |_, tables| tables.seat_in(RESERVED)[PHASE] = VALIDATING),
    ("phase 4 for 2", |_, tables| tables.seat_in(WAITING_TO_ENTER)[PHASE] = READER_WAITING),
    ("phase 6 for 5", |_, tables| tables.seat_in(HOLDING)[PHASE] = WITHDRAWN),
    ("phase 6 for 7", |_, tables| tables.seat_in(RESERVED)[PHASE] = WITHDRAWN),
];

pub fn damages(profile: Profile) -> impl Iterator<Item = &'static Damage> {
    DAMAGES.iter().chain(match profile {
        Ordinary => ORDINARY_DAMAGES,
        Sheet => SHEET_DAMAGES,
    })
}

/// Sound tables with one damage. The counts are those of the tables as damaged, so that no second clause is broken.
pub fn damaged(random: &mut Random, profile: Profile, damage: &Damage) -> Tables {
    let mut tables = ample(random, profile);
    damage.1(random, &mut tables);
    tables.put_counts();
    tables
}

// The two counts

/// One off a count, if there is one to take.
fn take_one(count: &mut u32) {
    *count = count.saturating_sub(1);
}

/// One of those counted at a place is counted at the other: the sum stays right.
fn count_at_other(nodes: &mut [u32], from: usize, to: usize) {
    if nodes[from] > 0 {
        nodes[from] -= 1;
        nodes[to] += 1;
    }
}

type Miscount = (&'static str, fn(&mut Tables));

/// Wrong counts, from right ones, while every other clause of sound shape holds. On some tables they come out right.
const MISCOUNTS: &[Miscount] = &[
    ("a reader too many", |tables| tables.nodes[READERS] += 1),
    ("a writer too many", |tables| tables.nodes[WRITERS] += 1),
    ("a writer too few", |tables| take_one(&mut tables.nodes[WRITERS])),
    ("a writer counted as a reader", |tables| count_at_other(&mut tables.nodes, WRITERS, READERS)),
    ("readers and writers swapped", |tables| tables.nodes.swap(READERS, WRITERS)),
    ("4294967295 readers", |tables| tables.nodes[READERS] = u32::MAX),
    ("4294967295 writers", |tables| tables.nodes[WRITERS] = u32::MAX),
    ("256 readers too many", |tables| tables.nodes[READERS] += 256),
    ("256 writers too many", |tables| tables.nodes[WRITERS] += 256),
    ("nobody counted", |tables| tables.count_those(|_| false)),
    ("holders of marked nodes are not counted", |tables| {
        let (profile, nodes) = (tables.profile, tables.nodes.clone());
        tables.count_those(|seat| !profile.marked(&nodes, seat[OWN]));
    }),
    ("holders of one node are counted once", |tables| {
        let mut owned = BTreeSet::new();
        tables.count_those(|seat| owned.insert(seat[OWN]));
    }),
];

/// Those of readers, which a sheet has not.
const ORDINARY_MISCOUNTS: &[Miscount] = &[
    ("a reader too few", |tables| take_one(&mut tables.nodes[READERS])),
    ("a reader counted as a writer", |tables| count_at_other(&mut tables.nodes, READERS, WRITERS)),
    ("readers that wait are counted", |tables| {
        tables.nodes[READERS] += tables.seats_in(READER_WAITING).count() as u32;
    }),
];

pub fn miscounts(profile: Profile) -> impl Iterator<Item = &'static Miscount> {
    MISCOUNTS.iter().chain(match profile {
        Ordinary => ORDINARY_MISCOUNTS,
        Sheet => &[],
    })
}

/// Sound tables, with many holders or few, but for counts that are wrong in this way.
pub fn miscounted(random: &mut Random, profile: Profile, miscount: &Miscount) -> Tables {
    loop {
        let mut tables = if random.percent(70) { many_holders(random, profile) } else { sound_words(random, profile) };
        let right = tables.clone();
        miscount.1(&mut tables);
        if tables != right {
            return tables;
        }
    }
}

// The title

impl Tables {
    /// Whether no node ends beyond the title, and there is one.
    fn title_fits(&self) -> bool {
        self.nodes[TITLE] != 0 && self.nodes[TITLE] >= self.largest_end()
    }

    /// The nodes that have a claim and are as wanted, by their numbers.
    fn claims(&self, wanted: impl Fn(u32) -> bool) -> Vec<u32> {
        let numbered = (1..).zip(self.each_node());
        numbered.filter(|(number, node)| node[KIND] != 0 && wanted(*number)).map(|(number, _)| number).collect()
    }

    /// One of these nodes, if there are any, becomes the only one that ends beyond the title, and that by a frame.
    fn end_beyond(&mut self, random: &mut Random, those: Vec<u32>) {
        self.nodes[TITLE] = self.nodes[TITLE].min(u32::MAX - 1).max(self.largest_end());
        if !those.is_empty() && self.nodes[TITLE] < u32::MAX {
            *self.node_word(random.pick(&those), END) = self.nodes[TITLE] + 1;
        }
    }
}

type Mistitle = (&'static str, fn(&mut Random, &mut Tables));

/// Titles that do not fit, while every other clause of sound shape holds. On some tables they come out right.
pub const MISTITLES: &[Mistitle] = &[
    ("no title", |_, tables| tables.nodes[TITLE] = 0),
    ("no title and no claim", |_, tables| {
        tables.nodes.fill(0);
        tables.seats.fill(0);
    }),
    ("a title of one frame", |_, tables| tables.nodes[TITLE] = 1),
    ("a frame short of the largest end", |_, tables| tables.nodes[TITLE] = tables.largest_end().saturating_sub(1)),
    ("half of the largest end", |_, tables| tables.nodes[TITLE] = tables.largest_end() / 2),
    ("a node ends a frame beyond", |random, tables| tables.end_beyond(random, tables.claims(|_| true))),
    ("a listed node ends a frame beyond", |random, tables| {
        let list = reached(tables.profile, &tables.nodes, &[]);
        tables.end_beyond(random, tables.claims(|node| list.contains(&node)));
    }),
    ("a node off the list ends a frame beyond", |random, tables| {
        let list = reached(tables.profile, &tables.nodes, &[]);
        tables.end_beyond(random, tables.claims(|node| !list.contains(&node)));
    }),
    ("a free node ends a frame beyond", |random, tables| {
        let used = reached(tables.profile, &tables.nodes, &tables.seats);
        tables.end_beyond(random, tables.claims(|node| !used.contains(&node)));
    }),
    ("a marked node ends a frame beyond", |random, tables| {
        tables.end_beyond(random, tables.claims(|node| tables.profile.marked(&tables.nodes, node)));
    }),
    ("a held node ends a frame beyond", |random, tables| {
        let held = tables.seats_in(HOLDING).map(|(_, seat)| seat[OWN]).collect();
        tables.end_beyond(random, held);
    }),
];

/// Sound tables, with many holders or few, but for a title that does not fit in this way.
pub fn mistitled(random: &mut Random, profile: Profile, mistitle: &Mistitle) -> Tables {
    loop {
        let mut tables = if random.percent(50) { many_holders(random, profile) } else { sound_words(random, profile) };
        mistitle.1(random, &mut tables);
        if !tables.title_fits() {
            return tables;
        }
    }
}
