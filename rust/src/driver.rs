//! Calls two machines on copies of the same tables and compares the answer and every word afterwards, also of the board and
//! of the shared run; `reading.rs` does so with scripts, `moving.rs` with lists of locks and of claims. Both machines are
//! behind the functions that `library.rs` names.
//! Nothing is assumed of the tables.

use crate::damages::{damaged, damages, miscounted, miscounts, mistitled, MISTITLES};
use crate::generate::{around, some_rows, Rows};
use crate::library::{Moved, Numbers, Printed, Shared};
use crate::lists::Lists;
use crate::machine::Profile::{self, Ordinary, Sheet};
use crate::machine::TITLE;
use crate::random::Random;
use crate::script::{ENTER, RESERVE, STEP};
use crate::tables::{kinds, many_holders, many_reserved, many_waiters, many_walkers, sound_words, Tables};

/// The functions of one machine that are lent tables of one profile.
#[derive(Clone, Copy)]
#[allow(clippy::type_complexity)]
pub struct Calls {
    pub clear: fn(&mut [u32], &mut [u32], u32) -> u64,
    pub reserve: fn(&mut [u32], &mut [u32], u32, u32, u32, u32) -> u64,
    pub enter: fn(&[u32], &mut [u32], u32) -> u64,
    pub step: fn(&mut [u32], &mut [u32], u32, &mut Shared) -> u64,
    pub release: fn(&mut [u32], &mut [u32], u32) -> u64,
    pub run: fn(&mut [u32], &mut [u32], &[u32], u32) -> u64,
    pub board: fn(&[u32], &[u32], &mut [u32], &mut u64) -> u64,
    pub free_count: fn(&[u32], &[u32]) -> u64,
}

/// The functions of one machine.
#[derive(Clone, Copy)]
pub struct Library {
    pub ordinary: Calls,
    pub sheet: Calls,
    pub read: fn(&[u8], &mut Numbers) -> u64,
    pub play: fn(&[u8], &mut Printed) -> u64,
    pub import: fn(u32, &[i64], &mut [u32]) -> Moved,
    pub export: fn(u32, &[u32], &mut [i64]) -> Moved,
}

impl Library {
    pub fn calls(&self, profile: Profile) -> &Calls {
        match profile {
            Ordinary => &self.ordinary,
            Sheet => &self.sheet,
        }
    }
}

/// The functions of a module for one profile as `Calls`.
#[macro_export]
macro_rules! calls_of {
    ($module:path, $sheet:literal) => {{
        use $module as side;
        $crate::driver::Calls {
            clear: side::clear::<$sheet>,
            reserve: side::reserve::<$sheet>,
            enter: side::enter::<$sheet>,
            step: side::step::<$sheet>,
            release: side::release::<$sheet>,
            run: side::run::<$sheet>,
            board: side::board::<$sheet>,
            free_count: side::free_count::<$sheet>,
        }
    }};
}

/// The functions of a module as a `Library`.
#[macro_export]
macro_rules! library_of {
    ($module:path) => {{
        use $module as side;
        $crate::driver::Library {
            ordinary: $crate::calls_of!($module, false),
            sheet: $crate::calls_of!($module, true),
            read: side::read,
            play: side::play,
            import: side::import,
            export: side::export,
        }
    }};
}

/// The machines that are linked, by their names. A static, so that the second one's functions are compiled here, beside the
/// rules that they call: made elsewhere, each would cost a call more.
#[cfg(feature = "proved")]
pub static MACHINES: &[(&str, Library)] =
    &[("second", library_of!(crate::library)), ("proved", library_of!(crate::proved))];

#[cfg(not(feature = "proved"))]
pub static MACHINES: &[(&str, Library)] = &[("second", library_of!(crate::library))];

/// A call, with what the words hold that it is lent to fill: the board's rows, and those of a step's shared run.
#[derive(Clone, Debug, PartialEq)]
pub enum Call {
    Clear { title: u32 },
    Reserve { seat: u32, start: u32, end: u32, kind: u32 },
    Enter { seat: u32 },
    Step { seat: u32, shared: Shared },
    Release { seat: u32 },
    Run { entries: Vec<u32>, budget: u32 },
    Board { rows: Vec<u32> },
    FreeCount,
}

/// A call of the profile that the tables are lent to.
#[derive(Clone, Debug)]
pub struct Case {
    pub tables: Tables,
    pub call: Call,
}

/// How tables of a kind are made.
pub type Family = fn(&mut Random, Profile) -> Tables;

/// What the machines do not agree on: a call on tables, a script to read and play, or a list to move.
pub enum Difference {
    Call(Case),
    Script(Vec<u8>),
    Lists(Lists),
}

/// What a call gives back and leaves behind. The slices lie in longer ones, whose other words must stay as well.
#[derive(PartialEq)]
pub struct Outcome {
    pub answer: u64,
    pub covered: u64,
    pub nodes: Guarded<u32>,
    pub seats: Guarded<u32>,
    pub rows: Guarded<u32>,
    pub shared: Guarded<u32>,
}

/// Words or bytes to lend, between ones that are not lent.
#[derive(PartialEq)]
pub struct Guarded<Word>(Vec<Word>);

const GUARD_LENGTH: usize = 2;
pub const GUARD: [u32; GUARD_LENGTH] = [0xdead_0001, 0xdead_0002];

impl<Word: Copy> Guarded<Word> {
    pub fn new(words: &[Word], guard: [Word; GUARD_LENGTH]) -> Guarded<Word> {
        Guarded([&guard, words, &guard].concat())
    }

    fn range(&self) -> std::ops::Range<usize> {
        GUARD_LENGTH..self.0.len() - GUARD_LENGTH
    }

    pub fn lend(&mut self) -> &mut [Word] {
        let range = self.range();
        &mut self.0[range]
    }

    pub fn words(&self) -> &[Word] {
        &self.0[self.range()]
    }
}

/// Makes the call; the board's rows and the words of the shared run are given apart.
pub fn make(
    calls: &Calls,
    call: &Call,
    nodes: &mut [u32],
    seats: &mut [u32],
    rows: &mut [u32],
    covered: &mut u64,
    shared: &mut Shared,
) -> u64 {
    match call {
        &Call::Clear { title } => (calls.clear)(nodes, seats, title),
        &Call::Reserve { seat, start, end, kind } => (calls.reserve)(nodes, seats, seat, start, end, kind),
        &Call::Enter { seat } => (calls.enter)(nodes, seats, seat),
        &Call::Step { seat, .. } => (calls.step)(nodes, seats, seat, shared),
        &Call::Release { seat } => (calls.release)(nodes, seats, seat),
        Call::Run { entries, budget } => (calls.run)(nodes, seats, entries, *budget),
        Call::Board { .. } => (calls.board)(nodes, seats, rows, covered),
        Call::FreeCount => (calls.free_count)(nodes, seats),
    }
}

/// The refusal that a call met before it did anything, if it did; a run that makes no step is as good as refused.
pub fn refusal(call: &Call, answer: u64) -> Option<u32> {
    let (high, low) = ((answer >> 32) as u32, answer as u32);
    match call {
        Call::Clear { .. } if low != 0 => Some(low),
        Call::Clear { .. } => None,
        Call::Run { .. } if low == 0 => Some(high),
        Call::Run { .. } => None,
        _ if high == 0 => Some(low),
        _ => None,
    }
}

/// What the words of the shared run hold before the call; only a step is lent them.
pub fn shared_found(call: &Call) -> Shared {
    if let &Call::Step { shared, .. } = call {
        shared
    } else {
        [0; 2]
    }
}

pub fn outcome(library: &Library, case: &Case) -> Outcome {
    let mut covered = 0xdead_0003;
    let Tables { profile, nodes, seats } = &case.tables;
    let mut nodes = Guarded::new(nodes, GUARD);
    let mut seats = Guarded::new(seats, GUARD);
    let mut rows = Guarded::new(if let Call::Board { rows } = &case.call { rows } else { &[] }, GUARD);
    let mut shared = Guarded::new(&shared_found(&case.call), GUARD);
    let two_words = shared.lend().try_into().expect("as many as are lent");
    let calls = library.calls(*profile);
    let answer = make(calls, &case.call, nodes.lend(), seats.lend(), rows.lend(), &mut covered, two_words);
    Outcome { answer, covered, nodes, seats, rows, shared }
}

/// Two machines, and how many calls they have agreed on.
pub struct Driver {
    pub ours: Library,
    pub theirs: Library,
    pub agreed: u64,
}

impl Driver {
    pub fn differs(&self, case: &Case) -> bool {
        outcome(&self.ours, case) != outcome(&self.theirs, case)
    }

    /// The tables after the call, on which both machines agree, or that they do not.
    fn compare(&mut self, case: Case) -> Result<Tables, Difference> {
        let ours = outcome(&self.ours, &case);
        if ours != outcome(&self.theirs, &case) {
            return Err(Difference::Call(case));
        }
        self.agreed += 1;
        let (nodes, seats) = (ours.nodes.words().to_vec(), ours.seats.words().to_vec());
        Ok(Tables { profile: case.tables.profile, nodes, seats })
    }

    /// Calls in turn from fresh tables, of one profile or, where several are given, of one or another.
    pub fn history(&mut self, random: &mut Random, profiles: &[Profile]) -> Result<(), Difference> {
        let (mut tables, calls) = some_history(random, profiles);
        for (profile, call) in calls {
            tables.profile = profile;
            tables = self.compare(Case { tables, call })?;
        }
        Ok(())
    }

    /// Each call once on the tables, and a run of several steps.
    pub fn every_call(&mut self, random: &mut Random, tables: Tables) -> Result<(), Difference> {
        for call in every_call(random, &tables) {
            self.compare(Case { tables: tables.clone(), call })?;
        }
        Ok(())
    }

    /// Each call on tables of a family.
    pub fn family(&mut self, random: &mut Random, family: Family, profile: Profile) -> Result<(), Difference> {
        let tables = family(random, profile);
        self.every_call(random, tables)
    }

    /// Each call on sound tables of the other profile, some of which are sound for both.
    pub fn other_profile(&mut self, random: &mut Random) -> Result<(), Difference> {
        let families = [sound_words, many_holders, many_waiters, many_reserved, many_walkers];
        let [made_by, lent_to] = random.pick(&[[Ordinary, Sheet], [Sheet, Ordinary]]);
        let tables = Tables { profile: lent_to, ..random.pick(&families)(random, made_by) };
        self.every_call(random, tables)
    }

    pub fn damages(&mut self, random: &mut Random, profile: Profile) -> Result<(), Difference> {
        for damage in damages(profile) {
            let tables = damaged(random, profile, damage);
            self.every_call(random, tables)?;
        }
        for miscount in miscounts(profile) {
            let tables = miscounted(random, profile, miscount);
            self.every_call(random, tables)?;
        }
        for mistitle in MISTITLES {
            let tables = mistitled(random, profile, mistitle);
            self.every_call(random, tables)?;
        }
        Ok(())
    }
}

/// Fresh tables, and generated rows as calls on them, with run, board, free count and rarely clear between.
pub fn some_history(random: &mut Random, profiles: &[Profile]) -> (Tables, Vec<(Profile, Call)>) {
    let Rows { nodes, seats, title, rows } = some_rows(random, profiles);
    let mut call = |row: [u32; 5]| match (random.below(1000), row) {
        (0, _) => Call::Clear { title: random.pick(&[title, title, u32::MAX, 1, 0]) },
        (1..=50, _) => some_run(random, seats),
        (51..=150, _) => some_board(random),
        (151..=250, _) => Call::FreeCount,
        (_, [RESERVE, seat, start, end, kind]) => Call::Reserve { seat, start, end, kind },
        (_, [ENTER, seat, ..]) => Call::Enter { seat },
        (_, [STEP, seat, ..]) => Call::Step { seat, shared: some_shared(random) },
        (_, [_, seat, ..]) => Call::Release { seat },
    };
    let calls = rows.into_iter().map(|(profile, row)| (profile, call(row))).collect();
    (Tables::fresh(profiles[0], nodes, seats, title), calls)
}

/// Each call once, as it is made on these tables, and a reserve, an enter and a step more.
pub fn every_call(random: &mut Random, tables: &Tables) -> [Call; 11] {
    let seat_count = tables.seat_count();
    let title = tables.nodes.get(TITLE).copied().unwrap_or(0);
    [
        Call::Clear { title: some_title(random, title) },
        some_reserve(random, tables.profile, seat_count, title),
        some_reserve(random, tables.profile, seat_count, title),
        Call::Enter { seat: some_seat(random, seat_count) },
        Call::Enter { seat: some_seat(random, seat_count) },
        some_step(random, seat_count),
        some_step(random, seat_count),
        Call::Release { seat: some_seat(random, seat_count) },
        some_run(random, seat_count),
        some_board(random),
        Call::FreeCount,
    ]
}

/// A count for clear: none, the one that the tables have, or another.
fn some_title(random: &mut Random, title: u32) -> u32 {
    let another = random.word();
    random.pick(&[0, 0, 1, title, title.wrapping_add(1), another, u32::MAX])
}

fn some_seat(random: &mut Random, seat_count: u32) -> u32 {
    if random.percent(95) {
        random.below(seat_count)
    } else {
        random.pick(&[seat_count, 64, u32::MAX])
    }
}

/// Words to find where the shared run is to be told. Neither is 0, so that a store of 0 is seen; half are as small as frames
/// mostly are, half any.
fn some_shared(random: &mut Random) -> Shared {
    [(); 2].map(|()| {
        let most = random.pick(&[9, u32::MAX]);
        random.between(1, most)
    })
}

fn some_step(random: &mut Random, seat_count: u32) -> Call {
    Call::Step { seat: some_seat(random, seat_count), shared: some_shared(random) }
}

fn some_reserve(random: &mut Random, profile: Profile, seat_count: u32, title: u32) -> Call {
    let seat = some_seat(random, seat_count);
    let any_kind = random.pick(&[0, 1, 2, 3, u32::MAX]);
    match random.below(10) {
        0..=5 => {
            let start = random.below(9);
            Call::Reserve { seat, start, end: start + random.between(1, 5), kind: random.pick(kinds(profile)) }
        }
        6..=7 => Call::Reserve { seat, start: random.edge(), end: random.edge(), kind: any_kind },
        _ => {
            let [start, end] = around(random, title);
            Call::Reserve { seat, start, end, kind: random.pick(&[1, 2, any_kind]) }
        }
    }
}

fn some_run(random: &mut Random, seat_count: u32) -> Call {
    let length = random.pick(&[0, 1, 2, 5, 30]);
    let entries: Vec<u32> = (0..length).map(|_| some_seat(random, seat_count)).collect();
    Call::Run { entries, budget: random.pick(&[0, 1, 2, 29, 30, 31, u32::MAX]) }
}

fn some_board(random: &mut Random) -> Call {
    let length = random.pick(&[0, 3, 4, 5, 8, 31, 255, 256, 300]);
    Call::Board { rows: (0..length).map(|_| random.word()).collect() }
}
