//! Pairs of tables that belong together, with the calls as methods: the ordinary tables, and a writers' sheet.

use crate::answers::{Answer, Ran, Refused, Row};
use crate::lent::{self, sheet, HOLDING_READERS, HOLDING_WRITERS, MOST_NODES, MOST_SEATS, TITLE};
use std::ops::Range;

/// The holders by rising seat, and the frames that they cover.
#[derive(Clone, Debug, PartialEq, Eq)]
pub struct Board {
    pub rows: Vec<Row>,
    /// The number of frames that at least one of them covers; at most the title's.
    pub covered: u64,
}

/// A pair of tables, as a type of its own, on which no calls are made but these lent ones.
macro_rules! pair_of_tables {
    ($(#[$said:meta])* $pair:ident, $lent:ident) => {
        $(#[$said])*
        #[derive(Clone, Debug, PartialEq, Eq)]
        pub struct $pair {
            nodes: Vec<u32>,
            seats: Vec<u32>,
        }

        impl $pair {
            /// Fresh tables of 1 to 256 nodes and 1 to 64 seats, for a title of so many frames, from 1.
            pub fn new(nodes: usize, seats: usize, title: u32) -> Result<$pair, Refused> {
                if nodes > MOST_NODES || seats > MOST_SEATS {
                    return Err(Refused::Damaged);
                }
                let mut tables =
                    $pair { nodes: vec![0; $lent::node_words(nodes)], seats: vec![0; $lent::seat_words(seats)] };
                tables.clear(title).map(|()| tables)
            }

            /// Tables of any words, such as were kept elsewhere; if they are damaged, the calls say so. No word tells whether they
            /// were those of [`Tables`] or of a [`Sheet`]: that must be kept beside them.
            pub fn from_words(nodes: Vec<u32>, seats: Vec<u32>) -> $pair {
                $pair { nodes, seats }
            }

            /// The words of the nodes and of the seats.
            pub fn words(&self) -> (&[u32], &[u32]) {
                (&self.nodes, &self.seats)
            }

            /// Makes the tables fresh again, for a title of so many frames, the same or another.
            pub fn clear(&mut self, title: u32) -> Result<(), Refused> {
                $lent::clear(&mut self.nodes, &mut self.seats, title)
            }

            /// Takes a node for a claim of these frames, none of them beyond the title: the seat has it from then on, though it
            /// enters later. The kind is a [`Kind`](crate::Kind) or a number.
            pub fn reserve(&mut self, seat: u32, frames: Range<u32>, kind: impl Into<u32>) -> Result<Answer, Refused> {
                $lent::reserve(&mut self.nodes, &mut self.seats, seat, frames, kind)
            }

            /// Lets a seat that has reserved a node come in, before the first claim on the list as it is now.
            pub fn enter(&mut self, seat: u32) -> Result<Answer, Refused> {
                $lent::enter(&self.nodes, &mut self.seats, seat)
            }

            /// One step of a seat that has a claim; of one that has reserved a node, it enters.
            pub fn step(&mut self, seat: u32) -> Result<Answer, Refused> {
                $lent::step(&mut self.nodes, &mut self.seats, seat)
            }

            /// Ends the claim of a seat that holds.
            pub fn release(&mut self, seat: u32) -> Result<Answer, Refused> {
                $lent::release(&mut self.nodes, &mut self.seats, seat)
            }

            /// Steps the seats of a schedule in order, within a budget, up to the first that is refused.
            pub fn run(&mut self, schedule: &[u32], budget: u32) -> Ran {
                $lent::run(&mut self.nodes, &mut self.seats, schedule, budget)
            }

            /// The holders, and the frames that they cover.
            pub fn board(&self) -> Result<Board, Refused> {
                let mut rows = vec![Row::default(); MOST_SEATS];
                let shown = $lent::board(&self.nodes, &self.seats, &mut rows)?;
                rows.truncate(shown.rows);
                Ok(Board { rows, covered: shown.covered })
            }

            /// How many writers hold: a word that the calls keep, so that nothing is walked. Of tables that a call finds damaged it
            /// says nothing.
            pub fn holding_writers(&self) -> u32 {
                self.kept(HOLDING_WRITERS)
            }

            /// How many frames the title has, as [`new`](Self::new) or [`clear`](Self::clear) was told.
            pub fn title(&self) -> u32 {
                self.kept(TITLE)
            }

            /// Tables of any words may be too short to have it: they are damaged, nobody holds, and there is no title.
            fn kept(&self, word: usize) -> u32 {
                self.nodes.get(word).copied().unwrap_or(0)
            }

            /// How many nodes are free.
            pub fn free_count(&self) -> Result<u32, Refused> {
                $lent::free_count(&self.nodes, &self.seats)
            }
        }
    };
}

pair_of_tables!(
    /// The ordinary tables, a node table and a seat table that belong together: claims read or write.
    Tables,
    lent
);

impl Tables {
    /// How many readers hold, as [`holding_writers`](Tables::holding_writers) says how many writers.
    pub fn holding_readers(&self) -> u32 {
        self.kept(HOLDING_READERS)
    }
}

pair_of_tables!(
    /// A writers' sheet, such as one on which subtitles are burnt in: a node table and a seat table that belong together, and every claim
    /// writes. One that reads is refused as [`NoSuchKind`](Refused::NoSuchKind). A claim holds as soon as it is linked, and none is
    /// withdrawn: no step answers [`Back`](Answer::Back), and none is refused as [`NoNodeFree`](Refused::NoNodeFree).
    Sheet,
    sheet
);
