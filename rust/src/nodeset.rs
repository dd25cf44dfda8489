//! Sets of nodes, for the second machine's fetch: a bit for each number, so that each node is met once.

/// "N is 1 to 256": what a set has room for.
pub const MOST_NODES: usize = 256;

/// A set of nodes, a bit for each of the numbers 1 to 256.
pub struct NodeSet([u64; MOST_NODES / 64]);

impl NodeSet {
    pub fn all(count: usize) -> NodeSet {
        let ones = |width: usize| if width < 64 { (1 << width) - 1 } else { u64::MAX };
        NodeSet(std::array::from_fn(|at| ones(count.saturating_sub(64 * at))))
    }

    pub fn has(&self, node: u32) -> bool {
        self.0[(node as usize - 1) / 64] >> ((node - 1) % 64) & 1 == 1
    }

    /// Without what is met by following next from a node, itself included. What follows a node that is out is out too.
    pub fn without_those_from(&mut self, first: u32, next: &impl Fn(u32) -> u32) {
        let mut node = first;
        while node != 0 && self.has(node) {
            self.0[(node as usize - 1) / 64] &= !(1 << ((node - 1) % 64));
            node = next(node);
        }
    }

    pub fn lowest(&self) -> Option<u32> {
        let at = self.0.iter().position(|&bits| bits != 0)?;
        Some(64 * at as u32 + self.0[at].trailing_zeros() + 1)
    }

    pub fn count(&self) -> u32 {
        self.0.iter().map(|bits| bits.count_ones()).sum()
    }
}
