//! Where each word stands, as the documents say it, and the count over the seats: not the machine's constants and functions,
//! so that a wrong one is seen. The other tests know no place and no width by number.

pub const HEAD: usize = 0;
pub const READERS: usize = 1;
pub const WRITERS: usize = 2;
pub const TITLE: usize = 3;
pub const WORDS_BEFORE_NODES: usize = 4;
pub const NODE_WORDS: usize = 5;
pub const START: usize = 0;
pub const END: usize = 1;
pub const KIND: usize = 2;
pub const NEXT: usize = 3;
pub const MARK: usize = 4;
pub const SEAT_WORDS: usize = 4;
pub const PHASE: usize = 0;
pub const OWN: usize = 1;
pub const PREV: usize = 2;
pub const CUR: usize = 3;

pub const fn place(node: u32, field: usize) -> usize {
    WORDS_BEFORE_NODES + NODE_WORDS * (node as usize - 1) + field
}

pub fn word(nodes: &[u32], node: u32, field: usize) -> u32 {
    nodes[place(node, field)]
}

/// The two counts as the table has them, readers first.
pub fn counts_kept(nodes: &[u32]) -> [u32; 2] {
    [nodes[READERS], nodes[WRITERS]]
}

/// The seats in phase 5, those whose own node has kind 1 and those whose own node has kind 2.
pub fn counts_over_seats(nodes: &[u32], seats: &[u32]) -> [u32; 2] {
    let holds = |seat: &[u32], kind: u32| seat[PHASE] == 5 && word(nodes, seat[OWN], KIND) == kind;
    [1, 2].map(|kind| seats.chunks(SEAT_WORDS).filter(|seat| holds(seat, kind)).count() as u32)
}

/// 02: "A table whose remembered count is 0 or below a node's end is damaged": node by node, whatever they are.
pub fn title_is_damage(nodes: &[u32]) -> bool {
    let node_count = ((nodes.len() - WORDS_BEFORE_NODES) / NODE_WORDS) as u32;
    nodes[TITLE] == 0 || (1..=node_count).any(|node| nodes[TITLE] < word(nodes, node, END))
}
