//! Sees every store that a call makes to the two tables, in order, those too that leave a word as it was. The tables lie on
//! pages that may not be written. A store faults there; the pages are opened, the processor makes the store and stops behind
//! it, and what it changed is noted before the pages are closed again. For Linux on x86-64; elsewhere there is no watcher.

use std::fmt;

#[derive(Clone, Copy, Debug, PartialEq, Eq)]
pub enum Table {
    Nodes,
    Seats,
}

/// One store, of one word or of several side by side.
#[derive(Clone, Copy, Debug, PartialEq, Eq)]
pub struct Store {
    pub table: Table,
    /// the first word that is stored, by its number in the table
    pub word: usize,
    /// what that word holds afterwards
    pub value: u32,
    /// one behind the last word that the store changed, or `word` if it changed none
    pub changed_to: usize,
}

impl Store {
    pub fn changes(&self) -> bool {
        self.changed_to > self.word
    }
}

impl fmt::Display for Store {
    fn fmt(&self, text: &mut fmt::Formatter) -> fmt::Result {
        let Store { table, word, value, changed_to } = self;
        let name = if *table == Table::Nodes { "nodes" } else { "seats" };
        match changed_to - word {
            0 => write!(text, "{name}[{word}] = {value} again"),
            1 => write!(text, "{name}[{word}] = {value}"),
            _ => write!(text, "{name}[{word}..{changed_to}] = {value} ..."),
        }
    }
}

/// What is said where there is no watcher.
pub const NOT_HERE: &str = "stores are watched only on Linux on x86-64";

pub use watching::Watcher;

#[cfg(not(all(target_os = "linux", target_arch = "x86_64")))]
mod watching {
    use super::Store;

    /// None is ever made.
    pub struct Watcher(());

    impl Watcher {
        pub fn new() -> Option<Watcher> {
            None
        }

        pub fn watch<Answer>(
            &mut self,
            _: &mut [u32],
            _: &mut [u32],
            _: impl FnOnce(&mut [u32], &mut [u32]) -> Answer,
        ) -> (Answer, Vec<Store>) {
            unreachable!("there is no watcher here")
        }
    }
}

#[cfg(all(target_os = "linux", target_arch = "x86_64"))]
mod watching {
    use super::{Store, Table};
    use std::ptr::{null_mut, NonNull};
    use std::slice::{from_raw_parts, from_raw_parts_mut};
    use std::sync::atomic::{compiler_fence, AtomicU32, AtomicUsize, Ordering::Relaxed, Ordering::SeqCst};
    use std::sync::{Mutex, MutexGuard, PoisonError};

    /// Two pages for the nodes and one for the seats, of 1,024 words each: more than the longest tables have, since tests
    /// lend longer ones.
    const NODE_ROOM: usize = 2048;
    const ROOM: usize = NODE_ROOM + 1024;
    const BYTES: usize = 4 * ROOM;

    /// A call makes fewer: even a clear that stores each byte of the longest tables by itself.
    const MOST_STORES: usize = 1 << 14;

    /// No store is wider than 64 bytes, and from the middle of a word on these lie in 17 words.
    const WIDEST: usize = 17;

    // What std has no name for, of the C library for Linux on x86-64; of its structures as much as is looked at.

    const READ: i32 = 1;
    const READ_AND_WRITE: i32 = 3;
    const PRIVATE_AND_OF_NO_FILE: i32 = 0x22;
    const NO_FILE: i32 = -1;
    const TRAP: i32 = 5;
    const FAULT: i32 = 11;
    const HANDLER_IS_TOLD_ALL: i32 = 4;

    type Handler = extern "C" fn(i32, *const Information, *mut Context);

    /// `struct sigaction`. No handler is the default action.
    #[repr(C)]
    struct Action {
        handler: Option<Handler>,
        mask: [u64; 16],
        flags: i32,
        restorer: usize,
    }

    /// `siginfo_t` of a fault, up to the address that faulted.
    #[repr(C)]
    struct Information {
        numbers: [i32; 4],
        address: usize,
    }

    /// `ucontext_t` up to the registers, which stand behind 40 bytes.
    #[repr(C)]
    struct Context {
        before: [u64; 5],
        registers: [u64; 23],
    }

    const FLAGS_REGISTER: usize = 17;
    /// The processor stops behind the next instruction, or behind one turn of a repeated one.
    const TRAP_FLAG: u64 = 0x100;
    const ERROR_REGISTER: usize = 19;
    const WROTE: u64 = 2;

    extern "C" {
        fn mmap(address: *mut u32, bytes: usize, access: i32, flags: i32, file: i32, offset: i64) -> *mut u32;
        fn munmap(address: *mut u32, bytes: usize) -> i32;
        fn mprotect(address: *mut u32, bytes: usize, access: i32) -> i32;
        fn sigaction(signal: i32, action: *const Action, before: *mut Action) -> i32;
    }

    fn action(handler: Option<Handler>) -> Action {
        Action { handler, mask: [0; 16], flags: HANDLER_IS_TOLD_ALL, restorer: 0 }
    }

    /// What the handlers know and note. A handler may not allocate, so all of it has its place from the start. They run in
    /// the thread that makes the call, between two of its instructions, and there is one watcher at a time: no order is asked
    /// of the processor, and of the compiler only where a call begins and ends.
    struct Notes {
        /// the address of the pages
        pages: AtomicUsize,
        /// the word that is being stored, or NONE
        storing: AtomicUsize,
        /// how many stores there were, those too for which there was no room
        seen: AtomicUsize,
        /// of each store its first word, that word's value, and one behind the last word that it changed
        stores: [[AtomicU32; 3]; MOST_STORES],
        /// the words of the pages, as they were before the store that is being made
        words: [AtomicU32; ROOM],
    }

    const NONE: usize = usize::MAX;
    #[allow(clippy::declare_interior_mutable_const)] // each place of a list is to be one of its own
    const ZERO: AtomicU32 = AtomicU32::new(0);
    #[allow(clippy::declare_interior_mutable_const)]
    const NO_STORE: [AtomicU32; 3] = [ZERO; 3];

    static NOTES: Notes = Notes {
        pages: AtomicUsize::new(0),
        storing: AtomicUsize::new(NONE),
        seen: AtomicUsize::new(0),
        stores: [NO_STORE; MOST_STORES],
        words: [ZERO; ROOM],
    };

    static ONE_AT_A_TIME: Mutex<()> = Mutex::new(());

    /// Opens or closes the pages. Nothing that is seen would be right if that failed, so the program ends then.
    fn let_pages(access: i32) {
        // these are whole pages of the watcher's own, and they can be read at any time
        if unsafe { mprotect(NOTES.pages.load(Relaxed) as *mut u32, BYTES, access) } != 0 {
            std::process::abort();
        }
    }

    /// What is not ours happens again when the handler returns, and then as if nobody watched.
    fn not_ours(signal: i32) {
        // a whole structure, and nothing is asked for; a handler may make this call
        unsafe { sigaction(signal, &action(None), null_mut()) };
    }

    /// A store to the pages is let through alone.
    extern "C" fn on_fault(signal: i32, information: *const Information, context: *mut Context) {
        // the kernel lends both to the handler until it returns
        let (information, context) = unsafe { (&*information, &mut *context) };
        let pages = NOTES.pages.load(Relaxed);
        let wrote = context.registers[ERROR_REGISTER] & WROTE != 0;
        if !wrote || !(pages..pages + BYTES).contains(&information.address) || NOTES.storing.load(Relaxed) != NONE {
            return not_ours(signal);
        }
        NOTES.storing.store((information.address - pages) / 4, Relaxed);
        let_pages(READ_AND_WRITE);
        context.registers[FLAGS_REGISTER] |= TRAP_FLAG;
    }

    /// The processor has stopped behind the store.
    extern "C" fn on_trap(signal: i32, _: *const Information, context: *mut Context) {
        // the kernel lends it to the handler until it returns
        let context = unsafe { &mut *context };
        match NOTES.storing.swap(NONE, Relaxed) {
            NONE => {
                not_ours(signal);
                context.registers[FLAGS_REGISTER] |= TRAP_FLAG;
            }
            word => {
                note(word);
                let_pages(READ);
                context.registers[FLAGS_REGISTER] &= !TRAP_FLAG;
            }
        }
    }

    fn note(word: usize) {
        let pages = NOTES.pages.load(Relaxed) as *const u32;
        let mut changed_to = word;
        for at in word..ROOM.min(word + WIDEST) {
            // there are ROOM words, and they can be read at any time
            let now = unsafe { pages.add(at).read_volatile() };
            if NOTES.words[at].swap(now, Relaxed) != now {
                changed_to = at + 1;
            }
        }
        if let Some(store) = NOTES.stores.get(NOTES.seen.fetch_add(1, Relaxed)) {
            store[0].store(word as u32, Relaxed);
            store[1].store(NOTES.words[word].load(Relaxed), Relaxed);
            store[2].store(changed_to as u32, Relaxed);
        }
    }

    fn noted(store: &[AtomicU32; 3]) -> Store {
        let [word, value, changed_to] = [0, 1, 2].map(|at| store[at].load(Relaxed));
        let (table, first) = if (word as usize) < NODE_ROOM { (Table::Nodes, 0) } else { (Table::Seats, NODE_ROOM) };
        Store { table, word: word as usize - first, value, changed_to: changed_to as usize - first }
    }

    /// The pages, and what was done at a fault and at a stop before.
    pub struct Watcher {
        pages: NonNull<u32>,
        fault_before: Action,
        trap_before: Action,
        _alone: MutexGuard<'static, ()>,
    }

    impl Watcher {
        /// There is one at a time: where there is another already, this waits for its end.
        pub fn new() -> Option<Watcher> {
            let alone = ONE_AT_A_TIME.lock().unwrap_or_else(PoisonError::into_inner);
            // new pages where the kernel likes, so nothing that is there is touched
            let pages = unsafe { mmap(null_mut(), BYTES, READ_AND_WRITE, PRIVATE_AND_OF_NO_FILE, NO_FILE, 0) };
            assert!(pages as isize != -1, "there is memory for three pages");
            NOTES.pages.store(pages as usize, Relaxed);
            let mut watcher = Watcher {
                pages: NonNull::new(pages).expect("nothing is mapped at 0"),
                fault_before: action(None),
                trap_before: action(None),
                _alone: alone,
            };
            // whole structures; the handlers only use `NOTES`, what they are lent, and plain system calls, as handlers may
            let refused = unsafe {
                sigaction(FAULT, &action(Some(on_fault)), &mut watcher.fault_before)
                    | sigaction(TRAP, &action(Some(on_trap)), &mut watcher.trap_before)
            };
            assert!(refused == 0, "these signals may be handled");
            Some(watcher)
        }

        /// Makes a call on the watched pages with these words, and leaves here what it leaves there. Gives what it gives
        /// back, and its stores in order.
        pub fn watch<Answer>(
            &mut self,
            nodes: &mut [u32],
            seats: &mut [u32],
            call: impl FnOnce(&mut [u32], &mut [u32]) -> Answer,
        ) -> (Answer, Vec<Store>) {
            let_pages(READ_AND_WRITE);
            let (nodes_there, seats_there) = self.lend(nodes.len(), seats.len());
            nodes_there.copy_from_slice(nodes);
            seats_there.copy_from_slice(seats);
            self.begin_notes();
            let_pages(READ);
            let (nodes_there, seats_there) = self.lend(nodes.len(), seats.len());
            compiler_fence(SeqCst);
            let answer = call(nodes_there, seats_there);
            compiler_fence(SeqCst);
            let stores = self.end_notes();
            nodes.copy_from_slice(&self.words()[..nodes.len()]);
            seats.copy_from_slice(&self.words()[NODE_ROOM..][..seats.len()]);
            (answer, stores)
        }

        fn lend(&mut self, node_words: usize, seat_words: usize) -> (&mut [u32], &mut [u32]) {
            assert!(node_words <= NODE_ROOM && seat_words <= ROOM - NODE_ROOM, "tables that have room");
            let pages = self.pages.as_ptr();
            // both lie within the pages and apart, nobody else has them, and the handlers change no word
            unsafe { (from_raw_parts_mut(pages, node_words), from_raw_parts_mut(pages.add(NODE_ROOM), seat_words)) }
        }

        fn words(&self) -> &[u32] {
            // there are ROOM words, they can be read at any time, and none of them is lent meanwhile
            unsafe { from_raw_parts(self.pages.as_ptr(), ROOM) }
        }

        fn begin_notes(&self) {
            NOTES.seen.store(0, Relaxed);
            NOTES.storing.store(NONE, Relaxed);
            for (noted, &word) in NOTES.words.iter().zip(self.words()) {
                noted.store(word, Relaxed);
            }
        }

        /// The stores, unless something was done to the pages that was not seen as a store.
        fn end_notes(&self) -> Vec<Store> {
            let seen = NOTES.seen.load(Relaxed);
            assert!(seen <= MOST_STORES, "{seen} stores, and room to note {MOST_STORES}");
            assert!(NOTES.storing.load(Relaxed) == NONE, "the processor did not stop behind a store");
            let known = NOTES.words.iter().zip(self.words()).all(|(noted, &word)| noted.load(Relaxed) == word);
            assert!(known, "a word changed that does not lie behind the address of a store");
            NOTES.stores[..seen].iter().map(noted).collect()
        }
    }

    impl Drop for Watcher {
        fn drop(&mut self) {
            // what is put back was told by the same call, and the pages are nobody's any more
            unsafe {
                sigaction(FAULT, &self.fault_before, null_mut());
                sigaction(TRAP, &self.trap_before, null_mut());
                munmap(self.pages.as_ptr(), BYTES);
            }
        }
    }
}
