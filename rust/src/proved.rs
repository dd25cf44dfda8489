//! The proved library behind the same functions as `library.rs`: its archive is linked, and this file says how it is called.
//! Compiled only with the feature `proved`. A slice crosses as its address and its count of words, an array as its address.

use crate::library::{Moved, Numbers, Printed, Shared};

mod archive {
    /// What crosses by value: nothing that is lent tells of a refusal.
    #[repr(C)]
    pub struct Moved {
        pub refusal: u32,
        pub place: usize,
    }

    /// The calls on tables of a profile, under the names that the archive has for them.
    macro_rules! calls {
        (
            $clear:ident, $reserve:ident, $enter:ident, $step:ident, $release:ident, $run:ident, $board:ident,
            $free_count:ident
        ) => {
            extern "C" {
                pub fn $clear(
                    nodes: *mut u32,
                    node_words: usize,
                    seats: *mut u32,
                    seat_words: usize,
                    title: u32,
                ) -> u64;
                pub fn $reserve(
                    nodes: *mut u32,
                    node_words: usize,
                    seats: *mut u32,
                    seat_words: usize,
                    seat: u32,
                    start: u32,
                    end: u32,
                    kind: u32,
                ) -> u64;
                pub fn $enter(
                    nodes: *const u32,
                    node_words: usize,
                    seats: *mut u32,
                    seat_words: usize,
                    seat: u32,
                ) -> u64;
                pub fn $step(
                    nodes: *mut u32,
                    node_words: usize,
                    seats: *mut u32,
                    seat_words: usize,
                    seat: u32,
                    shared: *mut u32,
                ) -> u64;
                pub fn $release(
                    nodes: *mut u32,
                    node_words: usize,
                    seats: *mut u32,
                    seat_words: usize,
                    seat: u32,
                ) -> u64;
                pub fn $run(
                    nodes: *mut u32,
                    node_words: usize,
                    seats: *mut u32,
                    seat_words: usize,
                    entries: *const u32,
                    entry_count: usize,
                    budget: u32,
                ) -> u64;
                pub fn $board(
                    nodes: *const u32,
                    node_words: usize,
                    seats: *const u32,
                    seat_words: usize,
                    rows: *mut u32,
                    row_words: usize,
                    covered: *mut u64,
                ) -> u64;
                pub fn $free_count(nodes: *const u32, node_words: usize, seats: *const u32, seat_words: usize) -> u64;
            }
        };
    }

    calls!(
        soodhiqune_clear,
        soodhiqune_reserve,
        soodhiqune_enter,
        soodhiqune_step,
        soodhiqune_release,
        soodhiqune_run,
        soodhiqune_board,
        soodhiqune_free_count
    );
    calls!(
        soodhiqune_sheet_clear,
        soodhiqune_sheet_reserve,
        soodhiqune_sheet_enter,
        soodhiqune_sheet_step,
        soodhiqune_sheet_release,
        soodhiqune_sheet_run,
        soodhiqune_sheet_board,
        soodhiqune_sheet_free_count
    );

    extern "C" {
        pub fn soodhiqune_read(bytes: *const u8, byte_count: usize, numbers: *mut u32) -> u64;
        pub fn soodhiqune_play(bytes: *const u8, byte_count: usize, printed: *mut u8) -> u64;
        pub fn soodhiqune_import(
            title: u32,
            locks: *const i64,
            lock_words: usize,
            claims: *mut u32,
            claim_words: usize,
        ) -> Moved;
        pub fn soodhiqune_export(
            title: u32,
            claims: *const u32,
            claim_words: usize,
            locks: *mut i64,
            lock_words: usize,
        ) -> Moved;
    }
}

// No function of the archive asks anything of its caller but that so many words stand where it is told, so each call is safe.

pub fn clear<const SHEET: bool>(nodes: &mut [u32], seats: &mut [u32], title: u32) -> u64 {
    let clear = if SHEET { archive::soodhiqune_sheet_clear } else { archive::soodhiqune_clear };
    unsafe { clear(nodes.as_mut_ptr(), nodes.len(), seats.as_mut_ptr(), seats.len(), title) }
}

pub fn reserve<const SHEET: bool>(
    nodes: &mut [u32],
    seats: &mut [u32],
    seat: u32,
    start: u32,
    end: u32,
    kind: u32,
) -> u64 {
    let reserve = if SHEET { archive::soodhiqune_sheet_reserve } else { archive::soodhiqune_reserve };
    unsafe { reserve(nodes.as_mut_ptr(), nodes.len(), seats.as_mut_ptr(), seats.len(), seat, start, end, kind) }
}

pub fn enter<const SHEET: bool>(nodes: &[u32], seats: &mut [u32], seat: u32) -> u64 {
    let enter = if SHEET { archive::soodhiqune_sheet_enter } else { archive::soodhiqune_enter };
    unsafe { enter(nodes.as_ptr(), nodes.len(), seats.as_mut_ptr(), seats.len(), seat) }
}

pub fn step<const SHEET: bool>(nodes: &mut [u32], seats: &mut [u32], seat: u32, shared: &mut Shared) -> u64 {
    let step = if SHEET { archive::soodhiqune_sheet_step } else { archive::soodhiqune_step };
    unsafe { step(nodes.as_mut_ptr(), nodes.len(), seats.as_mut_ptr(), seats.len(), seat, shared.as_mut_ptr()) }
}

pub fn release<const SHEET: bool>(nodes: &mut [u32], seats: &mut [u32], seat: u32) -> u64 {
    let release = if SHEET { archive::soodhiqune_sheet_release } else { archive::soodhiqune_release };
    unsafe { release(nodes.as_mut_ptr(), nodes.len(), seats.as_mut_ptr(), seats.len(), seat) }
}

pub fn run<const SHEET: bool>(nodes: &mut [u32], seats: &mut [u32], entries: &[u32], budget: u32) -> u64 {
    let run = if SHEET { archive::soodhiqune_sheet_run } else { archive::soodhiqune_run };
    unsafe {
        run(nodes.as_mut_ptr(), nodes.len(), seats.as_mut_ptr(), seats.len(), entries.as_ptr(), entries.len(), budget)
    }
}

pub fn board<const SHEET: bool>(nodes: &[u32], seats: &[u32], rows: &mut [u32], covered: &mut u64) -> u64 {
    let board = if SHEET { archive::soodhiqune_sheet_board } else { archive::soodhiqune_board };
    unsafe { board(nodes.as_ptr(), nodes.len(), seats.as_ptr(), seats.len(), rows.as_mut_ptr(), rows.len(), covered) }
}

pub fn free_count<const SHEET: bool>(nodes: &[u32], seats: &[u32]) -> u64 {
    let free_count = if SHEET { archive::soodhiqune_sheet_free_count } else { archive::soodhiqune_free_count };
    unsafe { free_count(nodes.as_ptr(), nodes.len(), seats.as_ptr(), seats.len()) }
}

pub fn read(bytes: &[u8], numbers: &mut Numbers) -> u64 {
    unsafe { archive::soodhiqune_read(bytes.as_ptr(), bytes.len(), numbers.as_mut_ptr()) }
}

pub fn play(bytes: &[u8], printed: &mut Printed) -> u64 {
    unsafe { archive::soodhiqune_play(bytes.as_ptr(), bytes.len(), printed.as_mut_ptr()) }
}

pub fn import(title: u32, locks: &[i64], claims: &mut [u32]) -> Moved {
    let moved =
        unsafe { archive::soodhiqune_import(title, locks.as_ptr(), locks.len(), claims.as_mut_ptr(), claims.len()) };
    (moved.refusal, moved.place)
}

pub fn export(title: u32, claims: &[u32], locks: &mut [i64]) -> Moved {
    let moved =
        unsafe { archive::soodhiqune_export(title, claims.as_ptr(), claims.len(), locks.as_mut_ptr(), locks.len()) };
    (moved.refusal, moved.place)
}
