//! A second machine for the claim tables, written from documents 01 and 02 alone: every call, on tables of either profile.
//! It assumes nothing of what it is lent: tables of any length and any words are answered, if need be by refusal 1.
//! Behind the test of sound shape every name of a node is in bounds, and the functions that follow rely on that.

use self::Profile::{Ordinary, Sheet};
use crate::nodeset::NodeSet;
pub use crate::nodeset::MOST_NODES;
use std::ops::Range;

/// "Nodes: one head word, then N nodes of five words: start, end, kind, next, mark." 02: "Keep the two counts, readers
/// first, in two words after the head word"; the title's frame count has "a word of its own". 01: "A word added to the
/// node table stands before node 1, after those already there." So the length is 4 + 5·N.
pub const HEAD: usize = 0;
pub const READERS: usize = 1;
pub const WRITERS: usize = 2;
pub const TITLE: usize = 3;
pub const START: usize = 0;
pub const END: usize = 1;
pub const KIND: usize = 2;
pub const NEXT: usize = 3;
pub const MARK: usize = 4;
pub const NODE_WORDS: usize = 5;

/// "Seats: S seats of four words: phase, own, prev, cur. S is 1 to 64, numbered from 0."
pub const PHASE: usize = 0;
pub const OWN: usize = 1;
pub const PREV: usize = 2;
pub const CUR: usize = 3;
pub const MOST_SEATS: usize = 64;

type Seat = [u32; 4];

/// "An idle seat (0) has zeros in all four words."
const IDLE_SEAT: Seat = [0; 4];

pub const IDLE: u32 = 0;
pub const WALKING: u32 = 1;
pub const WAITING_TO_ENTER: u32 = 2;
pub const VALIDATING: u32 = 3;
pub const READER_WAITING: u32 = 4;
pub const HOLDING: u32 = 5;
pub const WITHDRAWN: u32 = 6;
/// 02: "puts the seat in a new phase 7".
pub const RESERVED: u32 = 7;

/// "Kind 1 reads, 2 writes."
pub const READS: u32 = 1;
pub const WRITES: u32 = 2;

/// Whose rules the tables are under. 02: "The subtitle burn-in sheets have no readers. For those, a profile after 000's
/// exclusive lock", which is "its own set of calls over the same layout". A profile stands beside the tables in every rule: what
/// differs asks for it, and so does all that has to know where a word stands.
#[derive(Clone, Copy, Debug, PartialEq, Eq)]
pub enum Profile {
    Ordinary,
    Sheet,
}

pub const PROFILES: [Profile; 2] = [Ordinary, Sheet];

/// "A claim covers frames start up to but not including end."
#[derive(Clone, Copy)]
struct Claim {
    start: u32,
    end: u32,
    kind: u32,
}

/// "What a call gives back": the answers of reserve, enter, step and release where the call is not refused. 02: "`wait` carries
/// both", "the first shared frame and the end of the shared run".
#[derive(Clone, Copy, Debug, PartialEq, Eq)]
pub enum Answer {
    Node(u32),
    Out,
    On,
    Wait { node: u32, first: u32, end: u32 },
    Held,
    Back,
}

/// A refusal is its number. The calls ask in rising number, but for 11, "after 3 and before 4", before they change anything.
pub fn refuse(number: u32, when: bool) -> Result<(), u32> {
    if when {
        Err(number)
    } else {
        Ok(())
    }
}

/// Fetch, hold and withdraw bring a seat to a phase with "prev and cur 0".
fn come_to(seat: &mut Seat, phase: u32) {
    seat[PHASE] = phase;
    seat[PREV] = 0;
    seat[CUR] = 0;
}

// The words of the tables

impl Profile {
    /// How many words stand before node 1, and how many a seat has. Both profiles have as many: 02, "over the same layout".
    pub fn before_nodes(self) -> usize {
        4
    }

    pub fn seat_words(self) -> usize {
        4
    }

    pub fn node_count(self, nodes: &[u32]) -> usize {
        (nodes.len() - self.before_nodes()) / NODE_WORDS
    }

    pub fn seat_count(self, seats: &[u32]) -> usize {
        seats.len() / self.seat_words()
    }

    /// "Nodes are numbered 1 to N": 0 is no node and has no place.
    pub fn place(self, node: u32, field: usize) -> usize {
        self.before_nodes() + NODE_WORDS * (node as usize - 1) + field
    }

    fn word(self, nodes: &[u32], node: u32, field: usize) -> u32 {
        nodes[self.place(node, field)]
    }

    fn next(self, nodes: &[u32], node: u32) -> u32 {
        self.word(nodes, node, NEXT)
    }

    /// "Mark 1 means released or withdrawn."
    pub fn marked(self, nodes: &[u32], node: u32) -> bool {
        self.word(nodes, node, MARK) == 1
    }

    fn claim_of(self, nodes: &[u32], node: u32) -> Claim {
        Claim {
            start: self.word(nodes, node, START),
            end: self.word(nodes, node, END),
            kind: self.word(nodes, node, KIND),
        }
    }

    /// The words of a seat. Refusal 2: "seat number not below S".
    fn load_seat(self, seats: &[u32], number: u32) -> Result<Seat, u32> {
        let phase = self.seat_words() * number as usize + PHASE;
        let words = seats.get(phase..=phase + CUR).ok_or(2_u32)?;
        Ok(words.try_into().expect("as many as a seat has"))
    }

    /// Only words that differ, as each store is mirrored to a standby.
    fn store_seat(self, seats: &mut [u32], number: u32, seat: Seat) {
        for (word, value) in seats[self.seat_words() * number as usize..].iter_mut().zip(seat) {
            if *word != value {
                *word = value;
            }
        }
    }

    /// "'The link of prev' is head if prev is 0, else prev's next": the place of that word.
    pub fn link(self, prev: u32) -> usize {
        if prev == 0 {
            HEAD
        } else {
            self.place(prev, NEXT)
        }
    }

    /// Tables of N nodes and S seats as clear leaves them for a title of so many frames: "that table is fresh".
    pub fn fresh(self, nodes: u32, seats: u32, title: u32) -> (Vec<u32>, Vec<u32>) {
        let mut node_words = vec![0; self.before_nodes() + NODE_WORDS * nodes as usize];
        node_words[TITLE] = title;
        (node_words, vec![0; self.seat_words() * seats as usize])
    }
}

// Sound shape

impl Profile {
    /// "Lengths fit."
    fn lengths_fit(self, nodes: &[u32], seats: &[u32]) -> bool {
        nodes.len() >= self.before_nodes()
            && (nodes.len() - self.before_nodes()) % NODE_WORDS == 0
            && seats.len() % self.seat_words() == 0
            && (1..=MOST_NODES).contains(&self.node_count(nodes))
            && (1..=MOST_SEATS).contains(&self.seat_count(seats))
    }

    /// "Kind 1 reads, 2 writes." 02, of a sheet: "kind 2 only", and "refusals: kind 1 is 4".
    fn is_kind(self, kind: u32) -> bool {
        kind == WRITES || kind == READS && self == Ordinary
    }

    /// "Each nonzero head, next, own, prev and cur names a node of kind 1 or 2": any other kind but 0 fails at its own node.
    fn names_a_claim(self, nodes: &[u32], count: usize, name: u32) -> bool {
        name == 0 || (name as usize <= count && self.word(nodes, name, KIND) != 0)
    }

    /// "Each node is all zeros (kind 0), or has kind 1 or 2, start < end, next at most N, mark 0 or 1." 02: "A table whose
    /// remembered count is [...] below a node's end is damaged": any node's, listed or not. No count is below the end of zeros.
    fn node_is_sound(self, nodes: &[u32], count: usize, node: &[u32]) -> bool {
        match node[KIND] {
            0 => node[START] | node[END] | node[NEXT] | node[MARK] == 0,
            kind if self.is_kind(kind) => {
                let claim_fits = node[START] < node[END] && node[END] <= nodes[TITLE];
                claim_fits && node[MARK] <= 1 && self.names_a_claim(nodes, count, node[NEXT])
            }
            _ => false,
        }
    }

    /// "Phase is 0 to 6; an idle seat (0) has zeros in all four words, any other has own nonzero; in phases 5 and 6 prev and
    /// cur are 0; in 2 and 4 cur is nonzero." 02: "sound shape allows 7 like 6"; on a sheet "there is no phase 3, 4 or 6".
    fn seat_is_sound(self, nodes: &[u32], count: usize, seat: &[u32]) -> bool {
        let words_fit = match seat[PHASE] {
            IDLE => return seat[OWN] | seat[PREV] | seat[CUR] == 0,
            VALIDATING | READER_WAITING | WITHDRAWN if self == Sheet => false,
            WALKING | VALIDATING => true,
            WAITING_TO_ENTER | READER_WAITING => seat[CUR] != 0,
            HOLDING | WITHDRAWN | RESERVED => seat[PREV] | seat[CUR] == 0,
            _ => false,
        };
        words_fit && seat[OWN] != 0 && seat[OWN..=CUR].iter().all(|&name| self.names_a_claim(nodes, count, name))
    }

    /// The seats in phase 5, with their numbers.
    fn holders(self, seats: &[u32]) -> impl Iterator<Item = (u32, &[u32])> {
        (0..).zip(seats.chunks_exact(self.seat_words())).filter(|(_, seat)| seat[PHASE] == HOLDING)
    }

    /// 02: "A table whose two words differ from the count is damaged": "the count over the seats", of those in phase 5, by the
    /// kind of the own node. It is asked of seats that are sound.
    fn counts_fit(self, nodes: &[u32], seats: &[u32]) -> bool {
        let mut readers = 0;
        let mut writers = 0;
        for (_, seat) in self.holders(seats) {
            if self.word(nodes, seat[OWN], KIND) == READS {
                readers += 1;
            } else {
                writers += 1;
            }
        }
        nodes[READERS] == readers && nodes[WRITERS] == writers
    }

    /// The nodes met by following next from a node, itself included; in a circle they never end.
    fn following(self, nodes: &[u32], first: u32) -> impl Iterator<Item = u32> + '_ {
        let node = |name: u32| if name == 0 { None } else { Some(name) };
        std::iter::successors(node(first), move |&met| node(self.next(nodes, met)))
    }

    /// "The listed node numbers, marked ones too."
    pub fn listed(self, nodes: &[u32]) -> impl Iterator<Item = u32> + '_ {
        self.following(nodes, nodes[HEAD])
    }

    /// "From the head, 0 is met after at most N nodes."
    fn list_ends(self, nodes: &[u32]) -> bool {
        self.listed(nodes).nth(self.node_count(nodes)).is_none()
    }

    /// "Any other table is damaged." 02: so is one "whose remembered count is 0".
    fn sound(self, nodes: &[u32], seats: &[u32]) -> bool {
        if !self.lengths_fit(nodes, seats) {
            return false;
        }
        let count = self.node_count(nodes);
        nodes[TITLE] != 0
            && self.names_a_claim(nodes, count, nodes[HEAD])
            && nodes[self.before_nodes()..].chunks_exact(NODE_WORDS).all(|node| self.node_is_sound(nodes, count, node))
            && seats.chunks_exact(self.seat_words()).all(|seat| self.seat_is_sound(nodes, count, seat))
            && self.counts_fit(nodes, seats)
            && self.list_ends(nodes)
    }
}

// Fetch

impl Profile {
    /// "A node is free if it is not on the list and cannot be reached by following next from any other seat's own, prev or cur
    /// (those nodes included). The asking seat's own words do not count." The list is what is met from `head` by `next`.
    fn free(self, nodes: &[u32], seats: &[u32], asking: Option<u32>, head: u32, next: impl Fn(u32) -> u32) -> NodeSet {
        let mut free = NodeSet::all(self.node_count(nodes));
        free.without_those_from(head, &next);
        for (number, seat) in (0..).zip(seats.chunks_exact(self.seat_words())) {
            if asking != Some(number) {
                free.without_those_from(seat[OWN], &next);
                free.without_those_from(seat[PREV], &next);
                free.without_those_from(seat[CUR], &next);
            }
        }
        free
    }

    /// From a listed node on, itself included, "the next unmarked one" or the end of the list.
    fn first_unmarked(self, nodes: &[u32], node: u32) -> u32 {
        self.following(nodes, node).find(|&met| !self.marked(nodes, met)).unwrap_or(0)
    }

    /// The nodes free once the marked ones are taken out of the list, while nothing is stored: "head and the unmarked listed
    /// nodes then link to the next unmarked one; marked nodes keep their next".
    fn free_once_taken_out(self, nodes: &[u32], seats: &[u32], asking: u32) -> NodeSet {
        let mut unlisted = NodeSet::all(self.node_count(nodes));
        unlisted.without_those_from(nodes[HEAD], &|node| self.next(nodes, node));
        let next_then = |node| {
            let next = self.next(nodes, node);
            if unlisted.has(node) || self.marked(nodes, node) {
                next
            } else {
                self.first_unmarked(nodes, next)
            }
        };
        self.free(nodes, seats, Some(asking), self.first_unmarked(nodes, nodes[HEAD]), next_then)
    }

    /// "The marked nodes on the list are first taken out." 02: "Store only the links that differ."
    fn take_out(self, nodes: &mut [u32]) {
        let mut prev = 0;
        loop {
            let linked = nodes[self.link(prev)];
            let unmarked = self.first_unmarked(nodes, linked);
            if unmarked != linked {
                nodes[self.link(prev)] = unmarked;
            }
            if unmarked == 0 {
                return;
            }
            prev = unmarked;
        }
    }

    /// "The lowest free node is taken. If none is free, the marked nodes on the list are first taken out and the rule is tried
    /// again; if none is free then, the answer is refusal 8 and nothing has changed."
    fn take_free_node(self, nodes: &mut [u32], seats: &[u32], asking: u32) -> Result<u32, u32> {
        let free_now = self.free(nodes, seats, Some(asking), nodes[HEAD], |node| self.next(nodes, node));
        if let Some(node) = free_now.lowest() {
            return Ok(node);
        }
        let node = self.free_once_taken_out(nodes, seats, asking).lowest().ok_or(8_u32)?;
        self.take_out(nodes);
        Ok(node)
    }

    /// "The node gets the claim, next 0, mark 0." 02: "Reserve takes a node for a range and kind and puts the seat in a new
    /// phase 7, prev and cur 0"; "phase 6 fetches, goes to 7".
    fn fetch(self, nodes: &mut [u32], seats: &[u32], asking: u32, seat: &mut Seat, claim: Claim) -> Result<(), u32> {
        let node = self.take_free_node(nodes, seats, asking)?;
        nodes[self.place(node, START)] = claim.start;
        nodes[self.place(node, END)] = claim.end;
        nodes[self.place(node, KIND)] = claim.kind;
        nodes[self.place(node, NEXT)] = 0;
        nodes[self.place(node, MARK)] = 0;
        seat[OWN] = node;
        come_to(seat, RESERVED);
        Ok(())
    }
}

// The step rules

/// "The comparison gives a signed number for a listed node c and one's own claim o, by the first rule that holds."
fn compare(c: Claim, o: Claim) -> i32 {
    let both_read = c.kind == READS && o.kind == READS;
    if c.end <= o.start || both_read && c.start <= o.start {
        1
    } else if o.end <= c.start || both_read && o.start <= c.start {
        -1
    } else {
        0
    }
}

/// 02: "The pair is the whole of what both claims cover", whatever their kinds; "where, in any sound table, the claim waited at
/// shares no frame, both are 0".
fn shared_run(c: Claim, o: Claim) -> Range<u32> {
    let shared = c.start.max(o.start)..c.end.min(o.end);
    if shared.is_empty() {
        0..0
    } else {
        shared
    }
}

/// 02: "Enter reads the head and goes to phase 1." No node changes, and prev, which is 0, is the head already.
fn walk_from_head(nodes: &[u32], seat: &mut Seat) {
    seat[PHASE] = WALKING;
    seat[CUR] = nodes[HEAD];
}

impl Profile {
    /// "+1: prev becomes cur, cur its next."
    fn pass(self, nodes: &[u32], seat: &mut Seat) {
        seat[PREV] = seat[CUR];
        seat[CUR] = self.next(nodes, seat[CUR]);
    }

    /// "If prev is 0 or unmarked, and its link is cur": asked by both unlink and insert.
    fn links_to_cur(self, nodes: &[u32], seat: &Seat) -> bool {
        (seat[PREV] == 0 || !self.marked(nodes, seat[PREV])) && nodes[self.link(seat[PREV])] == seat[CUR]
    }

    /// "... that link becomes cur's next; then, either way, the seat's cur becomes cur's next."
    fn unlink(self, nodes: &mut [u32], seat: &mut Seat) {
        if self.links_to_cur(nodes, seat) {
            nodes[self.link(seat[PREV])] = self.next(nodes, seat[CUR]);
        }
        seat[CUR] = self.next(nodes, seat[CUR]);
    }

    /// "... own's next becomes cur, the link becomes own, phase 3, and validation starts: a reader at prev = own, cur = own's
    /// next; a writer at prev 0, cur = head (as it now is). Otherwise no node changes: with prev marked, prev becomes 0 and cur
    /// head; else cur becomes the link of prev." So cur becomes the link of the new prev in every case but one: 02, of a sheet,
    /// "a claim holds as soon as it is linked".
    fn insert(self, nodes: &mut [u32], seat: &mut Seat) {
        if self.links_to_cur(nodes, seat) {
            nodes[self.place(seat[OWN], NEXT)] = seat[CUR];
            nodes[self.link(seat[PREV])] = seat[OWN];
            if self == Sheet {
                return self.hold(nodes, seat);
            }
            seat[PHASE] = VALIDATING;
            seat[PREV] = if self.word(nodes, seat[OWN], KIND) == READS { seat[OWN] } else { 0 };
        } else if seat[PREV] != 0 && self.marked(nodes, seat[PREV]) {
            seat[PREV] = 0;
        }
        seat[CUR] = nodes[self.link(seat[PREV])];
    }

    /// The place of the count that the holder of a node is in: 02's "numbers of holding readers and holding writers".
    fn count_place(self, nodes: &[u32], own: u32) -> usize {
        if self.word(nodes, own, KIND) == READS {
            READERS
        } else {
            WRITERS
        }
    }

    /// "Hold: phase 5, prev and cur 0." 02: "Clear, step and release keep [the two words] equal to the count over the seats."
    fn hold(self, nodes: &mut [u32], seat: &mut Seat) {
        nodes[self.count_place(nodes, seat[OWN])] += 1;
        come_to(seat, HOLDING);
    }

    /// "Withdraw: own is marked, phase 6, prev and cur 0, own kept."
    fn withdraw(self, nodes: &mut [u32], seat: &mut Seat) {
        nodes[self.place(seat[OWN], MARK)] = 1;
        come_to(seat, WITHDRAWN);
    }

    /// "Cur 0: insert. cur marked: unlink. Else compare cur with own: +1: prev becomes cur, cur its next; 0: phase 2; −1:
    /// insert."
    fn step_walking(self, nodes: &mut [u32], seat: &mut Seat) {
        if seat[CUR] == 0 {
            return self.insert(nodes, seat);
        }
        if self.marked(nodes, seat[CUR]) {
            return self.unlink(nodes, seat);
        }
        match compare(self.claim_of(nodes, seat[CUR]), self.claim_of(nodes, seat[OWN])) {
            1 => self.pass(nodes, seat),
            0 => seat[PHASE] = WAITING_TO_ENTER,
            _ => self.insert(nodes, seat),
        }
    }

    /// "Cur marked: phase 1 [from 2, and 3 from 4]; else nothing."
    fn step_waiting(self, nodes: &[u32], seat: &mut Seat, phase: u32) {
        if self.marked(nodes, seat[CUR]) {
            seat[PHASE] = phase;
        }
    }

    /// "Cur 0 or cur.start ≥ own.end: hold. cur marked: unlink. cur reads: pass as for +1. Else phase 4."
    fn step_validating_reader(self, nodes: &mut [u32], seat: &mut Seat) {
        if seat[CUR] == 0 || self.word(nodes, seat[CUR], START) >= self.word(nodes, seat[OWN], END) {
            self.hold(nodes, seat);
        } else if self.marked(nodes, seat[CUR]) {
            self.unlink(nodes, seat);
        } else if self.word(nodes, seat[CUR], KIND) == READS {
            self.pass(nodes, seat);
        } else {
            seat[PHASE] = READER_WAITING;
        }
    }

    /// "Cur is own: hold. cur 0: withdraw. cur marked: unlink. cur.end ≤ own.start: pass. Else withdraw."
    fn step_validating_writer(self, nodes: &mut [u32], seat: &mut Seat) {
        if seat[CUR] == seat[OWN] {
            self.hold(nodes, seat);
        } else if seat[CUR] == 0 {
            self.withdraw(nodes, seat);
        } else if self.marked(nodes, seat[CUR]) {
            self.unlink(nodes, seat);
        } else if self.word(nodes, seat[CUR], END) <= self.word(nodes, seat[OWN], START) {
            self.pass(nodes, seat);
        } else {
            self.withdraw(nodes, seat);
        }
    }

    /// "The phase decides the step." 02: "A step in phase 7 enters." The seat before and after; refusals 2, 6 and 8. The
    /// tables are known to be sound.
    fn step_sound(self, nodes: &mut [u32], seats: &mut [u32], number: u32) -> Result<(Seat, Seat), u32> {
        let before = self.load_seat(seats, number)?;
        let mut seat = before;
        match seat[PHASE] {
            IDLE => return Err(6),
            WALKING => self.step_walking(nodes, &mut seat),
            WAITING_TO_ENTER => self.step_waiting(nodes, &mut seat, WALKING),
            VALIDATING if self.word(nodes, seat[OWN], KIND) == READS => self.step_validating_reader(nodes, &mut seat),
            VALIDATING => self.step_validating_writer(nodes, &mut seat),
            READER_WAITING => self.step_waiting(nodes, &mut seat, VALIDATING),
            WITHDRAWN => self.fetch(nodes, seats, number, &mut seat, self.claim_of(nodes, before[OWN]))?,
            RESERVED => walk_from_head(nodes, &mut seat),
            _ => {}
        }
        self.store_seat(seats, number, seat);
        Ok((before, seat))
    }
}

// The calls

pub const ROW_WORDS: usize = 4;

/// 02: "Covered shall be the number of frames that at least one holder covers." Taken by rising first frame, a row adds what
/// lies behind the furthest end reached before it.
fn covered_frames(rows: &[u32]) -> u64 {
    let mut runs: Vec<(u32, u32)> = rows.chunks_exact(ROW_WORDS).map(|row| (row[1], row[2])).collect();
    runs.sort_unstable_by_key(|&(start, _)| start);
    let mut covered = 0;
    let mut reached = 0;
    for (start, end) in runs {
        let first = start.max(reached);
        if first < end {
            covered += u64::from(end - first);
            reached = end;
        }
    }
    covered
}

impl Profile {
    /// "Clear writes 0 everywhere." 02: "Clear takes the title's frame count, 1 to 4,294,967,295, and the table remembers it
    /// in a word of its own"; "clear with count 0 is refused 3".
    pub fn clear(self, nodes: &mut [u32], seats: &mut [u32], title: u32) -> Result<(), u32> {
        refuse(1, !self.lengths_fit(nodes, seats))?;
        refuse(3, title == 0)?;
        nodes.fill(0);
        seats.fill(0);
        nodes[TITLE] = title;
        Ok(())
    }

    /// 02: "Reserve answers `node n`." Its refusals are those of 01's table, and 11, "after 3 and before 4": "a claim may
    /// end at [the title's frame count] and not beyond"; a claim fetched again was reserved so.
    pub fn reserve(
        self,
        nodes: &mut [u32],
        seats: &mut [u32],
        seat: u32,
        start: u32,
        end: u32,
        kind: u32,
    ) -> Result<Answer, u32> {
        refuse(1, !self.sound(nodes, seats))?;
        let mut words = self.load_seat(seats, seat)?;
        refuse(3, start >= end)?;
        refuse(11, end > nodes[TITLE])?;
        refuse(4, !self.is_kind(kind))?;
        refuse(5, words[PHASE] != IDLE)?;
        self.fetch(nodes, seats, seat, &mut words, Claim { start, end, kind })?;
        self.store_seat(seats, seat, words);
        Ok(Answer::Node(words[OWN]))
    }

    /// 02: "Enter `on`"; "enter in any phase but 7 is 14", in that of an idle seat too.
    pub fn enter(self, nodes: &[u32], seats: &mut [u32], seat: u32) -> Result<Answer, u32> {
        refuse(1, !self.sound(nodes, seats))?;
        let mut walker = self.load_seat(seats, seat)?;
        refuse(14, walker[PHASE] != RESERVED)?;
        walk_from_head(nodes, &mut walker);
        self.store_seat(seats, seat, walker);
        Ok(Answer::On)
    }

    /// "Step, from the seat's new phase: 2 or 4 `wait n` with n = cur; 5 `held`; 6 `back`; else `on`." 02: "phase 6 fetches,
    /// goes to 7 and answers `on`"; a worker told `wait` "wants to know what it is waiting for", so each `wait` carries the
    /// run, whether it begins to wait or waits on.
    pub fn step(self, nodes: &mut [u32], seats: &mut [u32], seat: u32) -> Result<Answer, u32> {
        refuse(1, !self.sound(nodes, seats))?;
        let (_, after) = self.step_sound(nodes, seats, seat)?;
        Ok(match after[PHASE] {
            WAITING_TO_ENTER | READER_WAITING => {
                let shared = shared_run(self.claim_of(nodes, after[CUR]), self.claim_of(nodes, after[OWN]));
                Answer::Wait { node: after[CUR], first: shared.start, end: shared.end }
            }
            HOLDING => Answer::Held,
            WITHDRAWN => Answer::Back,
            _ => Answer::On,
        })
    }

    /// "Release: own is marked and the seat idle." 02: it keeps the two words equal to the count.
    pub fn release(self, nodes: &mut [u32], seats: &mut [u32], seat: u32) -> Result<Answer, u32> {
        refuse(1, !self.sound(nodes, seats))?;
        let before = self.load_seat(seats, seat)?;
        refuse(7, before[PHASE] != HOLDING)?;
        nodes[self.place(before[OWN], MARK)] = 1;
        nodes[self.count_place(nodes, before[OWN])] -= 1;
        self.store_seat(seats, seat, IDLE_SEAT);
        Ok(Answer::Out)
    }

    /// "It steps them in order and stops at the end, when the budget is used, or at the first refused entry. It returns the
    /// steps accepted and the refusal met or 0." Of all steps only an insert that links can damage a sound table, and then by
    /// a list that never ends: shape need not be tested again at each entry.
    pub fn run(self, nodes: &mut [u32], seats: &mut [u32], entries: &[u32], budget: u32) -> (u32, u32) {
        let mut damaged = !self.sound(nodes, seats);
        if damaged {
            return (0, 1);
        }
        let mut steps = 0;
        for &entry in entries {
            if steps == budget {
                break;
            }
            match refuse(1, damaged).and_then(|()| self.step_sound(nodes, seats, entry)) {
                Ok((before, after)) => {
                    // a claim that is linked validates, or on a sheet holds
                    let links = before[PHASE] == WALKING && matches!(after[PHASE], VALIDATING | HOLDING);
                    damaged = links && !self.list_ends(nodes);
                    steps += 1;
                }
                Err(refusal) => return (steps, refusal),
            }
        }
        (steps, 0)
    }

    /// "Rows, each with seat, first frame, end frame and kind: one for each seat in phase 5, by rising seat number. Later rows
    /// stay. It returns the row count and covered frames."
    pub fn board(self, nodes: &[u32], seats: &[u32], rows: &mut [u32]) -> Result<(u32, u64), u32> {
        refuse(1, !self.sound(nodes, seats))?;
        let count = self.holders(seats).count();
        refuse(9, rows.len() / ROW_WORDS < count)?;
        for ((number, seat), row) in self.holders(seats).zip(rows.chunks_exact_mut(ROW_WORDS)) {
            let Claim { start, end, kind } = self.claim_of(nodes, seat[OWN]);
            row.copy_from_slice(&[number, start, end, kind]);
        }
        Ok((count as u32, covered_frames(&rows[..ROW_WORDS * count])))
    }

    /// "How many nodes are free, by the rule above with every seat counted and nothing taken out."
    pub fn free_count(self, nodes: &[u32], seats: &[u32]) -> Result<u32, u32> {
        refuse(1, !self.sound(nodes, seats))?;
        Ok(self.free(nodes, seats, None, nodes[HEAD], |node| self.next(nodes, node)).count())
    }
}
