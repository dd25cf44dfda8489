//! Tables to compare machines on that no history need have reached, of either profile: any words, and sound words of several
//! families. `damages.rs` breaks them.

use crate::machine::Profile::{Ordinary, Sheet};
use crate::machine::*;
use crate::random::Random;
use crate::script::call;
use std::collections::BTreeSet;
use std::slice::ChunksExact;

/// The two tables, and the profile whose calls they are lent to.
#[derive(Clone, Debug, PartialEq)]
pub struct Tables {
    pub profile: Profile,
    pub nodes: Vec<u32>,
    pub seats: Vec<u32>,
}

impl Tables {
    pub fn fresh(profile: Profile, nodes: u32, seats: u32, title: u32) -> Tables {
        let (nodes, seats) = profile.fresh(nodes, seats, title);
        Tables { profile, nodes, seats }
    }

    // The second machine's calls on them

    pub fn clear(&mut self, title: u32) -> Result<(), u32> {
        self.profile.clear(&mut self.nodes, &mut self.seats, title)
    }

    pub fn reserve(&mut self, seat: u32, start: u32, end: u32, kind: u32) -> Result<Answer, u32> {
        self.profile.reserve(&mut self.nodes, &mut self.seats, seat, start, end, kind)
    }

    pub fn enter(&mut self, seat: u32) -> Result<Answer, u32> {
        self.profile.enter(&self.nodes, &mut self.seats, seat)
    }

    pub fn step(&mut self, seat: u32) -> Result<Answer, u32> {
        self.profile.step(&mut self.nodes, &mut self.seats, seat)
    }

    pub fn release(&mut self, seat: u32) -> Result<Answer, u32> {
        self.profile.release(&mut self.nodes, &mut self.seats, seat)
    }

    pub fn run(&mut self, entries: &[u32], budget: u32) -> (u32, u32) {
        self.profile.run(&mut self.nodes, &mut self.seats, entries, budget)
    }

    pub fn board(&self, rows: &mut [u32]) -> Result<(u32, u64), u32> {
        self.profile.board(&self.nodes, &self.seats, rows)
    }

    pub fn free_count(&self) -> Result<u32, u32> {
        self.profile.free_count(&self.nodes, &self.seats)
    }

    /// The call that a row asks for.
    pub fn call(&mut self, row: [u32; 5]) -> Result<Answer, u32> {
        call(self.profile, &mut self.nodes, &mut self.seats, row)
    }

    /// Whether no call but clear finds them damaged.
    pub fn are_sound(&self) -> bool {
        self.free_count().is_ok()
    }

    pub fn listed(&self) -> impl Iterator<Item = u32> + '_ {
        self.profile.listed(&self.nodes)
    }

    /// The nodes, of a table which may be too short to have any.
    pub fn each_node(&self) -> ChunksExact<'_, u32> {
        self.nodes.get(self.profile.before_nodes()..).unwrap_or(&[]).chunks_exact(NODE_WORDS)
    }

    pub fn each_seat(&self) -> ChunksExact<'_, u32> {
        self.seats.chunks_exact(self.profile.seat_words())
    }

    /// The words of a seat, if it is there.
    pub fn seat(&self, number: u32) -> Option<&[u32]> {
        self.each_seat().nth(number as usize)
    }

    pub fn seat_count(&self) -> u32 {
        self.each_seat().len() as u32
    }

    /// The seats in a phase, with their numbers.
    pub fn seats_in(&self, phase: u32) -> impl Iterator<Item = (u32, &[u32])> {
        (0..).zip(self.each_seat()).filter(move |(_, seat)| seat[PHASE] == phase)
    }

    /// The place of the count that a seat is in, if it holds. Nothing is assumed of the tables: own may name nothing.
    pub fn counted_at(&self, seat: &[u32]) -> Option<usize> {
        if seat[PHASE] != HOLDING || seat[OWN] == 0 {
            return None;
        }
        match self.nodes.get(self.profile.place(seat[OWN], KIND)) {
            Some(&READS) => Some(READERS),
            Some(&WRITES) => Some(WRITERS),
            _ => None,
        }
    }

    /// Counts those of the holders that are wanted into the two words, if the table is long enough to have them.
    pub fn count_those(&mut self, mut wanted: impl FnMut(&[u32]) -> bool) {
        let mut counts = [0; 2];
        for (_, seat) in self.seats_in(HOLDING).filter(|(_, seat)| wanted(seat)) {
            if let Some(at) = self.counted_at(seat) {
                counts[at - READERS] += 1;
            }
        }
        if self.nodes.len() >= self.profile.before_nodes() {
            self.nodes[READERS..=WRITERS].copy_from_slice(&counts);
        }
    }

    /// Makes the two counts right.
    pub fn put_counts(&mut self) {
        self.count_those(|_| true);
    }

    pub fn largest_end(&self) -> u32 {
        self.each_node().map(|node| node[END]).max().unwrap_or(0)
    }

    /// Gives the table a title that no node ends beyond, often the shortest one, if it is long enough to have one.
    fn put_title(&mut self, random: &mut Random) {
        if self.nodes.len() < self.profile.before_nodes() {
            return;
        }
        let shortest = self.largest_end().max(1);
        let longer = random.between(shortest, u32::MAX);
        self.nodes[TITLE] = random.pick(&[shortest, shortest, shortest.saturating_add(1), longer, u32::MAX]);
    }

    /// These nodes are listed, in this order.
    pub fn list(&mut self, nodes: &[u32]) {
        let mut last = 0;
        for &node in nodes.iter().chain([&0]) {
            self.nodes[self.profile.link(last)] = node;
            last = node;
        }
    }

    fn put_seat(&mut self, random: &mut Random, number: usize, phase: u32, named: &[u32]) {
        if phase == IDLE || named.is_empty() {
            return;
        }
        let own = random.pick(named);
        let prev = if random.percent(10) { own } else { some_node(random, named) };
        let mut cur = match random.below(10) {
            0..=5 => self.nodes[self.profile.link(prev)],
            6 => own,
            _ => some_node(random, named),
        };
        if cur == 0 && waiting_phases(self.profile).contains(&phase) {
            cur = random.pick(named);
        }
        let seat = &mut self.seats[self.profile.seat_words() * number..];
        seat[PHASE] = phase;
        seat[OWN] = own;
        if phases_with_names(self.profile).contains(&phase) {
            seat[PREV] = prev;
            seat[CUR] = cur;
        }
    }
}

/// The nodes met from the head, and from what these seats name.
pub fn reached(profile: Profile, nodes: &[u32], seats: &[u32]) -> BTreeSet<u32> {
    let names = seats.chunks_exact(profile.seat_words()).flat_map(|seat| &seat[OWN..=CUR]);
    let mut reached = BTreeSet::new();
    for &name in names.chain([&nodes[HEAD]]) {
        let mut met = name;
        while met != 0 && reached.insert(met) {
            met = nodes[profile.link(met)];
        }
    }
    reached
}

// What sound shape allows

/// The phases, that of an idle seat first.
pub fn phases(profile: Profile) -> &'static [u32] {
    match profile {
        Ordinary => &[IDLE, WALKING, WAITING_TO_ENTER, VALIDATING, READER_WAITING, HOLDING, WITHDRAWN, RESERVED],
        Sheet => &[IDLE, WALKING, WAITING_TO_ENTER, HOLDING, RESERVED],
    }
}

/// Those in which prev and cur may name nodes.
pub fn phases_with_names(profile: Profile) -> &'static [u32] {
    match profile {
        Ordinary => &[WALKING, WAITING_TO_ENTER, VALIDATING, READER_WAITING],
        Sheet => &[WALKING, WAITING_TO_ENTER],
    }
}

pub fn waiting_phases(profile: Profile) -> &'static [u32] {
    match profile {
        Ordinary => &[WAITING_TO_ENTER, READER_WAITING],
        Sheet => &[WAITING_TO_ENTER],
    }
}

pub fn kinds(profile: Profile) -> &'static [u32] {
    match profile {
        Ordinary => &[READS, WRITES],
        Sheet => &[WRITES],
    }
}

fn some_phase(random: &mut Random, profile: Profile) -> u32 {
    random.pick(phases(profile))
}

fn some_node(random: &mut Random, named: &[u32]) -> u32 {
    if named.is_empty() || random.percent(25) {
        0
    } else {
        random.pick(named)
    }
}

/// Mostly few nodes and seats, so that they meet; now and then as many as may be.
fn sizes(random: &mut Random) -> (u32, u32) {
    match random.below(20) {
        0 => (256, 64),
        1 => (random.between(60, 70), random.between(1, 64)),
        2..=9 => (random.between(1, 3), random.between(1, 2)),
        _ => (random.between(1, 8), random.between(1, 4)),
    }
}

// The families

/// A table of any length and any words, mostly small ones, and mostly right counts and a title that fits, so that some are
/// sound.
pub fn any_words(random: &mut Random, profile: Profile) -> Tables {
    let (node_count, seat_count) = sizes(random);
    let mut tables = Tables::fresh(profile, node_count, seat_count, 0);
    if random.percent(30) {
        tables.nodes.resize(random.below(40) as usize, 0);
    }
    if random.percent(30) {
        tables.seats.resize(random.below(20) as usize, 0);
    }
    let largest = random.pick(&[1, 2, 7, 300]);
    let zeros = random.pick(&[20, 60, 95]);
    for word in tables.nodes.iter_mut().chain(&mut tables.seats) {
        if random.percent(5) {
            *word = random.edge();
        } else if !random.percent(zeros) {
            *word = random.between(0, largest);
        }
    }
    if random.percent(80) {
        tables.put_counts();
    }
    if random.percent(80) {
        tables.put_title(random);
    }
    tables
}

/// Where claims lie: most start at one of so many frames from a first one on, the others at an edge, and none is longer
/// than this.
#[derive(Clone, Copy)]
pub struct Frames {
    first: u32,
    bound: u32,
    longest: u32,
}

/// Few frames, so that claims meet, and some claims reach over all the others.
pub const CLOSE: Frames = Frames { first: 0, bound: 9, longest: u32::MAX };

/// More frames and no long claim, so that there are gaps between claims.
const APART: Frames = Frames { first: 0, bound: 60, longest: 8 };

/// Claims of several frames, so that many share a part of them.
const MEETING: Frames = Frames { first: 0, bound: 9, longest: 12 };

/// The same among the last frames there are: beyond 31 bits, and up to the longest title.
const LAST: Frames = Frames { first: u32::MAX - 12, ..MEETING };

fn put_claim(random: &mut Random, frames: Frames, kinds: &[u32], node: &mut [u32], named: &[u32]) {
    let start =
        if random.percent(10) { random.edge().min(u32::MAX - 1) } else { frames.first + random.below(frames.bound) };
    let longest = random.pick(&[1, 4, frames.longest]).min(u32::MAX - start);
    node[START] = start;
    node[END] = start + random.between(1, longest);
    node[KIND] = random.pick(kinds);
    node[NEXT] = some_node(random, named);
    node[MARK] = u32::from(random.percent(40));
}

/// Sound words at random, with a claim in the named nodes, some of which are listed, and the seats in these phases.
pub fn sound_with(
    random: &mut Random,
    profile: Profile,
    frames: Frames,
    node_count: u32,
    named: &[u32],
    list_length: usize,
    phases: &[u32],
) -> Tables {
    let mut tables = Tables::fresh(profile, node_count, phases.len() as u32, 0);
    for &node in named {
        let words = &mut tables.nodes[profile.place(node, START)..][..NODE_WORDS];
        put_claim(random, frames, kinds(profile), words, named);
    }
    let mut unlisted = named.to_vec();
    let mut take = || unlisted.swap_remove(random.below(unlisted.len() as u32) as usize);
    let list: Vec<u32> = (0..list_length).map(|_| take()).collect();
    tables.list(&list);
    for (number, &phase) in phases.iter().enumerate() {
        tables.put_seat(random, number, phase, named);
    }
    tables.put_counts();
    tables.put_title(random);
    tables
}

/// Sound words at random: own nodes on the list or shared, circles off the list, prev or cur at own. Most such tables were
/// never reached.
pub fn sound_words(random: &mut Random, profile: Profile) -> Tables {
    let (node_count, seat_count) = sizes(random);
    let zeros = random.pick(&[0, 20, 50]);
    let named: Vec<u32> = (1..=node_count).filter(|_| !random.percent(zeros)).collect();
    let list_length = if random.percent(20) { named.len() } else { random.between(0, named.len() as u32) as usize };
    let phases: Vec<u32> = (0..seat_count).map(|_| some_phase(random, profile)).collect();
    sound_with(random, profile, CLOSE, node_count, &named, list_length, &phases)
}

/// Sound words at random in which most seats hold, so that a board has several rows: nodes on the list and off it, in no
/// order of their first frames, and some that two seats hold.
pub fn many_holders(random: &mut Random, profile: Profile) -> Tables {
    let (node_count, seat_count) =
        if random.percent(5) { (256, 64) } else { (random.between(2, 12), random.between(2, 8)) };
    let named: Vec<u32> = (1..=node_count).collect();
    let list_length = random.between(0, node_count) as usize;
    let phases: Vec<u32> =
        (0..seat_count).map(|_| if random.percent(80) { HOLDING } else { some_phase(random, profile) }).collect();
    let frames = random.pick(&[CLOSE, APART]);
    sound_with(random, profile, frames, node_count, &named, list_length, &phases)
}

/// Sound words at random in which most seats are in these phases.
fn many_in(random: &mut Random, profile: Profile, phases: &[u32]) -> Tables {
    let (node_count, seat_count) = (random.between(3, 12), random.between(1, 8));
    let named: Vec<u32> = (1..=node_count).collect();
    let list_length = random.between(0, node_count) as usize;
    let phases: Vec<u32> = (0..seat_count)
        .map(|_| if random.percent(80) { random.pick(phases) } else { some_phase(random, profile) })
        .collect();
    let frames = random.pick(&[CLOSE, MEETING, LAST, LAST]);
    sound_with(random, profile, frames, node_count, &named, list_length, &phases)
}

/// Most seats wait, at any claim: one that shares some of its frames or all, one that shares none, of a reader where they read
/// themselves, or their own.
pub fn many_waiters(random: &mut Random, profile: Profile) -> Tables {
    many_in(random, profile, waiting_phases(profile))
}

/// Most seats walk, behind any node: one that links to cur or to another, a marked one, one off the list, or their own.
pub fn many_walkers(random: &mut Random, profile: Profile) -> Tables {
    many_in(random, profile, &[WALKING])
}

/// Sound words at random in which most seats have reserved a node: off the list as it should be, or listed, marked, or the node
/// of another seat too. Beside them are seats in any phase, and so few nodes that fetch, which must leave reserved ones alone,
/// often finds none.
pub fn many_reserved(random: &mut Random, profile: Profile) -> Tables {
    let (node_count, seat_count) = (random.between(1, 8), random.between(1, 6));
    let zeros = random.pick(&[0, 30]);
    let named: Vec<u32> = (1..=node_count).filter(|_| !random.percent(zeros)).collect();
    let list_length = random.between(0, named.len() as u32) as usize;
    let phases: Vec<u32> = (0..seat_count)
        .map(|_| {
            let any_phase = some_phase(random, profile);
            random.pick(&[RESERVED, RESERVED, RESERVED, IDLE, any_phase])
        })
        .collect();
    sound_with(random, profile, CLOSE, node_count, &named, list_length, &phases)
}

/// Marks for a list so long: on none of it or on all, at its head, in its middle or at its end, on every second node, or here
/// and there.
fn some_marks(random: &mut Random, length: usize) -> Vec<bool> {
    let pattern = random.below(7);
    let one = random.below(length as u32) as usize;
    let other = random.below(length as u32) as usize;
    let marked = |at: usize| match pattern {
        0 => false,
        1 => true,
        2 => at <= one,
        3 => (one.min(other)..=one.max(other)).contains(&at),
        4 => at >= one,
        5 => at % 2 == one % 2,
        _ => random.percent(40),
    };
    (0..length).map(marked).collect()
}

/// Sound words in which every node has a claim and most lists have them all, so that fetch finds none free at once. Marked
/// nodes come in runs, and so few seats name a node that some of them can be taken out and used again.
pub fn full_lists(random: &mut Random, profile: Profile) -> Tables {
    let (node_count, seat_count) = sizes(random);
    let named: Vec<u32> = (1..=node_count).collect();
    let left_out = if random.percent(70) { 0 } else { random.below(3).min(node_count - 1) };
    let busy = random.pick(&[0, 20, 60]);
    let fetching = if profile == Sheet { &[IDLE][..] } else { &[IDLE, WITHDRAWN] };
    let phases: Vec<u32> = (0..seat_count)
        .map(|_| if random.percent(busy) { some_phase(random, profile) } else { random.pick(fetching) })
        .collect();
    let list_length = (node_count - left_out) as usize;
    let mut tables = sound_with(random, profile, CLOSE, node_count, &named, list_length, &phases);
    let list: Vec<u32> = tables.listed().collect();
    for (node, marked) in list.iter().zip(some_marks(random, list.len())) {
        tables.nodes[profile.place(*node, MARK)] = u32::from(marked);
    }
    tables
}
