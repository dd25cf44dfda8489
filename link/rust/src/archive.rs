//! The functions of the archive, as `include/soodhiqune.h` declares them: a table, list or text is its address and its length.
//! None asks anything of its caller but that so many words stand there, and that what it may change overlaps nothing else.

use crate::answers::Moved;

/// The calls on tables stand there twice, with the same arguments; they differ in what stands before their names.
macro_rules! calls_on_tables {
    ($before:literal) => {
        extern "C" {
            #[link_name = concat!($before, "clear")]
            pub fn clear(nodes: *mut u32, node_words: usize, seats: *mut u32, seat_words: usize, title: u32) -> u64;
            #[link_name = concat!($before, "reserve")]
            pub fn reserve(
                nodes: *mut u32,
                node_words: usize,
                seats: *mut u32,
                seat_words: usize,
                seat: u32,
                start: u32,
                end: u32,
                kind: u32,
            ) -> u64;
            #[link_name = concat!($before, "enter")]
            pub fn enter(nodes: *const u32, node_words: usize, seats: *mut u32, seat_words: usize, seat: u32) -> u64;
            #[link_name = concat!($before, "step")]
            pub fn step(
                nodes: *mut u32,
                node_words: usize,
                seats: *mut u32,
                seat_words: usize,
                seat: u32,
                shared: *mut u32,
            ) -> u64;
            #[link_name = concat!($before, "release")]
            pub fn release(nodes: *mut u32, node_words: usize, seats: *mut u32, seat_words: usize, seat: u32) -> u64;
            #[link_name = concat!($before, "run")]
            pub fn run(
                nodes: *mut u32,
                node_words: usize,
                seats: *mut u32,
                seat_words: usize,
                schedule: *const u32,
                entries: usize,
                budget: u32,
            ) -> u64;
            #[link_name = concat!($before, "board")]
            pub fn board(
                nodes: *const u32,
                node_words: usize,
                seats: *const u32,
                seat_words: usize,
                rows: *mut u32,
                row_words: usize,
                covered: *mut u64,
            ) -> u64;
            #[link_name = concat!($before, "free_count")]
            pub fn free_count(nodes: *const u32, node_words: usize, seats: *const u32, seat_words: usize) -> u64;
        }
    };
}

/// On the ordinary tables.
pub mod ordinary {
    calls_on_tables!("soodhiqune_");
}

/// On a writers' sheet.
pub mod sheet {
    calls_on_tables!("soodhiqune_sheet_");
}

extern "C" {
    pub fn soodhiqune_read(script: *const u8, bytes: usize, numbers: *mut u32) -> u64;
    pub fn soodhiqune_play(script: *const u8, bytes: usize, printed: *mut u8) -> u64;
    pub(crate) fn soodhiqune_import(
        title: u32,
        locks: *const i64,
        lock_words: usize,
        claims: *mut u32,
        claim_words: usize,
    ) -> Moved;
    pub(crate) fn soodhiqune_export(
        title: u32,
        claims: *const u32,
        claim_words: usize,
        locks: *mut i64,
        lock_words: usize,
    ) -> Moved;
}
