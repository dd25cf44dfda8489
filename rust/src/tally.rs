//! Counts of what scripts and tables by seed really reach: a mix that never meets a rule says nothing about it. A tally is of
//! one profile. What happened in a call is told from the tables before and after it, as the second machine leaves them.

use crate::damages::{damaged, damages, miscounted, miscounts, mistitled, MISTITLES};
use crate::driver::{every_call, outcome, refusal, Call, Case, Family};
use crate::generate::{some_rows, Rows};
use crate::library_of;
use crate::lists::{names_met, some_export, some_import};
use crate::machine::{Answer, Profile, CUR, END, HEAD, HOLDING, IDLE, KIND, MOST_SEATS, OWN, PHASE, PREV, READERS};
use crate::machine::{READER_WAITING, READS, RESERVED, ROW_WORDS, START, TITLE, VALIDATING, WAITING_TO_ENTER, WALKING};
use crate::machine::{WITHDRAWN, WRITERS, WRITES};
use crate::random::Random;
use crate::script::{read_script, ENTER, RESERVE};
use crate::tables::{any_words, full_lists, kinds, many_holders, many_reserved, many_waiters, many_walkers};
use crate::tables::{sound_words, Tables};
use std::collections::{BTreeMap, BTreeSet};
use std::ops::Range;

pub struct Tally {
    profile: Profile,
    counts: BTreeMap<String, u64>,
    /// the most that was seen of something at once
    most: BTreeMap<&'static str, u32>,
}

fn word(tables: &Tables, node: u32, field: usize) -> u32 {
    tables.nodes[tables.profile.place(node, field)]
}

fn marked(tables: &Tables, node: u32) -> bool {
    node != 0 && tables.profile.marked(&tables.nodes, node)
}

fn reads(tables: &Tables, seat: &[u32]) -> bool {
    word(tables, seat[OWN], KIND) == READS
}

/// What a step from one seat state to another was, by the names of the document.
fn step_name(tables: &Tables, before: &[u32], after: &[u32]) -> &'static str {
    let was_marked = |node| marked(tables, node);
    match (before[PHASE], after[PHASE]) {
        (WALKING, WAITING_TO_ENTER) => "step: begins to wait in phase 2",
        (WALKING, VALIDATING) => "step: insert that links",
        (WALKING, HOLDING) => "step: insert that links and holds",
        (WALKING, WALKING) if was_marked(before[PREV]) && after[PREV] == 0 => "step: restart behind a marked prev",
        (WALKING, WALKING) if was_marked(before[CUR]) => "step: unlink while walking",
        (WALKING, WALKING) if before[PREV] == after[PREV] => "step: insert that finds another link",
        (WALKING, WALKING) => "step: pass while walking",
        (WAITING_TO_ENTER, WALKING) => "step: wait in phase 2 is over",
        (WAITING_TO_ENTER, _) => "step: waits on in phase 2",
        (VALIDATING, READER_WAITING) => "step: reader begins to wait in phase 4",
        (VALIDATING, HOLDING) if reads(tables, before) => "step: hold of a reader",
        (VALIDATING, HOLDING) => "step: hold of a writer",
        (VALIDATING, WITHDRAWN) => "step: withdrawal",
        (VALIDATING, _) if was_marked(before[CUR]) => "step: unlink while validating",
        (VALIDATING, _) => "step: pass while validating",
        (READER_WAITING, VALIDATING) => "step: reader's wait in phase 4 is over",
        (READER_WAITING, _) => "step: reader waits on in phase 4",
        (WITHDRAWN, _) if before[OWN] == after[OWN] => "step: fetch after withdrawal, the same node",
        (WITHDRAWN, _) => "step: fetch after withdrawal, another node",
        (RESERVED, _) => "step: enters in phase 7",
        _ => "step: of a holder",
    }
}

fn title_name(title: u32) -> &'static str {
    match title {
        1 => "title of one frame",
        2..=300 => "title of 2 to 300 frames",
        u32::MAX => "title of 4294967295 frames",
        _ => "title of another length",
    }
}

/// What a clear meets that the count it takes can make go wrong.
fn clear_name(tables: &Tables, title: u32) -> &'static str {
    let nodes = &tables.nodes;
    let lengths_fit = tables.clone().clear(1).is_ok();
    match (lengths_fit, title) {
        (false, 0) => "clear: lengths wrong, and count 0",
        (false, _) => "clear: lengths wrong",
        (true, 0) => "clear: count 0",
        _ if title == nodes[TITLE] => "clear: the same title",
        _ if nodes[TITLE] == 0 => "clear: a title where there was none",
        _ if tables.largest_end() > title => "clear: another title, which a claim there ends beyond",
        _ if tables.largest_end() > 0 => "clear: another title on tables with claims",
        _ => "clear: another title on tables without claims",
    }
}

/// What a reserve meets that 11, "end beyond the title", or its place among the refusals, can make go wrong, if it does.
fn reserve_name(tables: &Tables, seat: &[u32], [start, end, kind]: [u32; 3]) -> Option<&'static str> {
    let title = tables.nodes[TITLE];
    let known_kind = kinds(tables.profile).contains(&kind);
    match (start < end, known_kind, seat[PHASE] == IDLE) {
        (false, ..) if end > title => Some("reserve: beyond the title, and empty"),
        (true, false, _) if end > title => Some("reserve: beyond the title, of no known kind"),
        (true, true, false) if end > title => Some("reserve: beyond the title, by a seat that has a claim"),
        (true, true, true) if end > title && end - title > 1 => Some("reserve: beyond the title"),
        (true, true, true) if end > title => Some("reserve: beyond the title by a frame"),
        (true, false, _) if end == title => Some("reserve: up to the title, of no known kind"),
        (true, true, false) if end == title => Some("reserve: up to the title, by a seat that has a claim"),
        (true, true, true) if end == title => Some("reserve: up to the title"),
        _ => None,
    }
}

/// What a reserve of kind 1 meets on a sheet, where that is 4: alone, or beside another refusal.
fn reader_name(tables: &Tables, number: u32, seat: &[u32], [start, end, _]: [u32; 3]) -> &'static str {
    if start >= end {
        "reserve: kind 1 on a sheet, and empty"
    } else if end > tables.nodes[TITLE] {
        "reserve: kind 1 on a sheet, and beyond the title"
    } else if seat[PHASE] != IDLE {
        "reserve: kind 1 on a sheet, by a seat that has a claim"
    } else if tables.clone().reserve(number, start, end, WRITES).is_err() {
        "reserve: kind 1 on a sheet, where no node is free"
    } else {
        "reserve: kind 1 on a sheet, and nothing else is wrong"
    }
}

/// A seat that enters, by enter or by a step, in tables before that.
struct Entry<'a> {
    tables: &'a Tables,
    head: u32,
    own: u32,
}

impl Entry<'_> {
    fn seats_with_own_node(&self) -> usize {
        self.tables.each_seat().filter(|seat| seat[OWN] == self.own).count()
    }

    fn own_is_listed(&self) -> bool {
        self.tables.listed().any(|node| node == self.own)
    }
}

type Entering = (&'static str, fn(&Entry) -> bool);

/// What a seat can meet that enters: what is read of the head, and a node of its own that no call has left so.
const ENTRIES: [Entering; 6] = [
    ("no node is listed", |entry| entry.head == 0),
    ("the first listed node is unmarked", |entry| entry.head != 0 && !marked(entry.tables, entry.head)),
    ("the first listed node is marked", |entry| marked(entry.tables, entry.head)),
    // only in tables that were never reached
    ("its own node is listed", |entry| entry.own_is_listed()),
    ("its own node is marked", |entry| marked(entry.tables, entry.own)),
    ("its own node is another seat's too", |entry| entry.seats_with_own_node() > 1),
];

/// The tables without the claims of other reserved seats: a fetch that takes another node there has left theirs alone.
fn without_reserved(tables: &Tables, asking: u32) -> Tables {
    let mut without = tables.clone();
    for (number, seat) in (0..).zip(without.seats.chunks_exact_mut(tables.profile.seat_words())) {
        if number != asking && seat[PHASE] == RESERVED {
            seat.fill(0);
        }
    }
    without
}

type Run = Range<u32>;
type Pair = (&'static str, fn(&Run, &Run) -> bool);

/// How the runs of two holders can meet: what a count of covered frames can get wrong.
const PAIRS: [Pair; 4] = [
    ("board: holders that share a frame", |one, other| one.start < other.end && other.start < one.end),
    ("board: holders of the same run", |one, other| one == other),
    ("board: a holder inside another", |one, other| one != other && other.start <= one.start && one.end <= other.end),
    ("board: ends that touch", |one, other| one.end == other.start),
];

fn some_two(runs: &[Run], meet: fn(&Run, &Run) -> bool) -> bool {
    let rows = 0..runs.len();
    rows.clone().any(|one| rows.clone().any(|other| one != other && meet(&runs[one], &runs[other])))
}

/// The gaps between runs: each starts where a run ends, at a frame that none covers, and a run follows.
fn gap_count(runs: &[Run]) -> usize {
    let last_start = runs.iter().map(|run| run.start).max();
    let opens = |end: &u32| Some(*end) < last_start && !runs.iter().any(|run| run.contains(end));
    runs.iter().map(|run| run.end).filter(opens).collect::<BTreeSet<u32>>().len()
}

/// A claim that waits, as it is told so.
struct Wait {
    phase: u32,
    own: Run,
    /// the claim that it waits at
    at: Run,
    /// the run that it is told of
    shared: Run,
    both_read: bool,
    /// it waits at its own node
    at_own: bool,
}

impl Wait {
    fn new(tables: &Tables, seat: &[u32], shared: Run) -> Wait {
        let run = |node: u32| word(tables, node, START)..word(tables, node, END);
        let [own, at] = [seat[OWN], seat[CUR]];
        let both_read = [own, at].iter().all(|&node| word(tables, node, KIND) == READS);
        Wait { phase: seat[PHASE], own: run(own), at: run(at), shared, both_read, at_own: own == at }
    }

    fn shares(&self) -> bool {
        !self.shared.is_empty()
    }

    fn touches(&self) -> bool {
        self.own.end == self.at.start || self.at.end == self.own.start
    }
}

type Waiting = (&'static str, fn(&Wait) -> bool);

/// How a claim can wait, and how what it shares can lie in it and in the claim that it waits at: what a shared run can get
/// wrong.
const WAITS: [Waiting; 23] = [
    ("wait: in phase 2", |wait| wait.phase == WAITING_TO_ENTER),
    ("wait: in phase 4", |wait| wait.phase == READER_WAITING),
    ("wait: the shared run starts with the waiting claim", |wait| wait.at.start < wait.own.start && wait.shares()),
    ("wait: the shared run starts with the claim waited at", |wait| wait.own.start < wait.at.start && wait.shares()),
    ("wait: the shared run starts with both", |wait| wait.own.start == wait.at.start),
    ("wait: the shared run ends with the waiting claim", |wait| wait.own.end < wait.at.end && wait.shares()),
    ("wait: the shared run ends with the claim waited at", |wait| wait.at.end < wait.own.end && wait.shares()),
    ("wait: the shared run ends with both", |wait| wait.own.end == wait.at.end),
    ("wait: a part of each claim is shared", |wait| wait.shares() && wait.shared != wait.own && wait.shared != wait.at),
    ("wait: all of the waiting claim is shared, not of the other", |wait| {
        wait.shared == wait.own && wait.own != wait.at
    }),
    ("wait: all of the claim waited at is shared, not of the other", |wait| {
        wait.shared == wait.at && wait.own != wait.at
    }),
    ("wait: all of both claims is shared", |wait| wait.own == wait.at),
    ("wait: one frame is shared", |wait| wait.shared.len() == 1),
    ("wait: the shared run starts above 2147483648", |wait| wait.shared.start > 1 << 31),
    ("wait: the shared run ends at 4294967295", |wait| wait.shared.end == u32::MAX),
    // only in tables that were never reached
    ("wait: no frame is shared, in phase 2", |wait| !wait.shares() && wait.phase == WAITING_TO_ENTER),
    ("wait: no frame is shared, in phase 4", |wait| !wait.shares() && wait.phase == READER_WAITING),
    ("wait: no frame is shared, and the ends touch", |wait| !wait.shares() && wait.touches()),
    ("wait: no frame is shared, and the ends lie apart", |wait| !wait.shares() && !wait.touches()),
    ("wait: of a reader at a reader, in phase 2", |wait| wait.both_read && wait.phase == WAITING_TO_ENTER),
    ("wait: of a reader at a reader, in phase 4", |wait| wait.both_read && wait.phase == READER_WAITING),
    ("wait: at its own node, in phase 2", |wait| wait.at_own && wait.phase == WAITING_TO_ENTER),
    ("wait: at its own node, in phase 4", |wait| wait.at_own && wait.phase == READER_WAITING),
];

/// The tables of a round that are not made to be damaged.
const FAMILIES: [(&str, Family); 7] = [
    ("any words", any_words),
    ("sound words", sound_words),
    ("many holders", many_holders),
    ("many waiters", many_waiters),
    ("many reserved", many_reserved),
    ("many walkers", many_walkers),
    ("full lists", full_lists),
];

fn call_name(call: &Call) -> &'static str {
    match call {
        Call::Clear { .. } => "clear",
        Call::Reserve { .. } => "reserve",
        Call::Enter { .. } => "enter",
        Call::Step { .. } => "step",
        Call::Release { .. } => "release",
        Call::Run { .. } => "run",
        Call::Board { .. } => "board",
        Call::FreeCount => "free count",
    }
}

/// What a call answers, if it is not refused, or a run before it is.
fn accepted_name(call: &Call, answer: u64) -> String {
    let answers = ["node", "out", "on", "wait", "held", "back"];
    match (call, answer >> 32) {
        (Call::Run { .. }, 0) => "answer of run: to its end or its budget".to_string(),
        (Call::Run { .. }, refusal) => format!("answer of run: refusal {refusal} behind a step"),
        (Call::Clear { .. } | Call::Board { .. } | Call::FreeCount, _) => format!("answer of {}", call_name(call)),
        (_, kind) => format!("answer of {}: {}", call_name(call), answers[kind as usize - 1]),
    }
}

impl Tally {
    pub fn new(profile: Profile) -> Tally {
        Tally { profile, counts: BTreeMap::new(), most: BTreeMap::new() }
    }

    fn count(&mut self, name: impl Into<String>) {
        *self.counts.entry(name.into()).or_insert(0) += 1;
    }

    fn see(&mut self, name: &'static str, number: u32) {
        let most = self.most.entry(name).or_insert(0);
        *most = number.max(*most);
    }

    /// Sees how many hold in sound tables.
    fn count_holding(&mut self, tables: &Tables) {
        self.see("the most readers holding at once", tables.nodes[READERS]);
        self.see("the most writers holding at once", tables.nodes[WRITERS]);
    }

    /// Counts what a reserve meets at the title's end and of its kind, in sound tables.
    fn count_reserve(&mut self, tables: &Tables, seat: u32, claim: [u32; 3]) {
        let words = match tables.seat(seat) {
            Some(words) => words,
            None => return,
        };
        if let Some(name) = reserve_name(tables, words, claim) {
            self.count(name);
        }
        if self.profile == Profile::Sheet && claim[2] == READS {
            self.count(reader_name(tables, seat, words, claim));
        }
    }

    /// Counts what an enter, or a step in phase 7, meets in tables of any words: the phase of the seat if it is refused 14.
    fn count_enter(&mut self, by: &str, tables: &Tables, seat: u32) {
        let words = tables.seat(seat).unwrap_or(&[0; 4]);
        match tables.clone().enter(seat) {
            Err(14) => self.count(format!("{by}: refused in phase {}", words[PHASE])),
            Err(refusal) => self.count(format!("{by}: refused {refusal}")),
            Ok(_) => {
                let entry = Entry { tables, head: tables.nodes[HEAD], own: words[OWN] };
                for (name, _) in ENTRIES.iter().filter(|(_, met)| met(&entry)) {
                    self.count(format!("{by}: {name}"));
                }
            }
        }
    }

    /// Counts a fetch, by reserve or by a step in phase 6, that leaves the node of a reserved seat alone.
    fn count_fetch(
        &mut self,
        by: &str,
        tables: &Tables,
        seat: u32,
        fetch: impl Fn(&mut Tables) -> Result<Answer, u32>,
    ) {
        let own_then = |mut tables: Tables| {
            let answer = fetch(&mut tables);
            answer.map(|_| tables.seat(seat).map(|words| words[OWN]))
        };
        if own_then(tables.clone()) != own_then(without_reserved(tables, seat)) {
            self.count(format!("{by}: the node of a reserved seat is left alone"));
        }
    }

    /// Counts how a claim waits that a step left waiting.
    fn count_wait(&mut self, tables: &Tables, seat: &[u32], shared: Run) {
        let wait = Wait::new(tables, seat, shared);
        for (name, _) in WAITS.iter().filter(|(_, waits)| waits(&wait)) {
            self.count(*name);
        }
    }

    fn count_row(&mut self, tables: &mut Tables, row: [u32; 5]) {
        let before = tables.clone();
        match row {
            [RESERVE, seat, start, end, kind] => self.count_reserve(&before, seat, [start, end, kind]),
            [ENTER, seat, ..] => self.count_enter("enter", &before, seat),
            _ => {}
        }
        let make = |tables: &mut Tables| tables.call(row);
        let answer = make(tables);
        let call_name = ["reserve", "step", "release", "enter"][row[0] as usize - 1];
        if let Err(refusal) = answer {
            return self.count(format!("refusal {refusal} of {call_name}"));
        }
        let [words_before, words] = [&before, tables].map(|tables| tables.seat(row[1]).expect("it was not refused 2"));
        self.count(match answer {
            Ok(Answer::Node(_)) => "reserve",
            Ok(Answer::Out) if reads(&before, words_before) => "release of a reader",
            Ok(Answer::Out) => "release of a writer",
            _ if row[0] == ENTER => "enter",
            _ => step_name(&before, words_before, words),
        });
        if let Ok(Answer::Wait { first, end, .. }) = answer {
            self.count_wait(tables, words, first..end);
        }
        if row[0] == RESERVE || words_before[PHASE] == WITHDRAWN {
            if before.listed().ne(tables.listed()) {
                self.count("fetch that takes marked nodes out");
            }
            self.count_fetch(call_name, &before, row[1], make);
        }
        self.count_holding(tables);
    }

    /// Counts how the holders of sound tables meet.
    pub fn count_board(&mut self, tables: &Tables) {
        let mut rows = [0; ROW_WORDS * MOST_SEATS];
        let (count, _) = tables.board(&mut rows).expect("sound tables, and as many rows as seats");
        let runs: Vec<Run> = rows.chunks_exact(ROW_WORDS).take(count as usize).map(|row| row[1]..row[2]).collect();
        if count > 1 {
            self.count("board: two holders or more");
        }
        if runs.windows(2).any(|rows| rows[1].start < rows[0].start) {
            self.count("board: first frames not rising by seat");
        }
        for (name, meet) in PAIRS {
            if some_two(&runs, meet) {
                self.count(name);
            }
        }
        match gap_count(&runs) {
            0 => {}
            1 => self.count("board: a gap between holders"),
            _ => self.count("board: gaps between holders, two or more"),
        }
    }

    /// Counts what calls in turn reach from fresh tables.
    fn count_rows(&mut self, mut tables: Tables, rows: impl Iterator<Item = [u32; 5]>) {
        self.count(title_name(tables.nodes[TITLE]));
        let mut longest = 0;
        for row in rows {
            self.count_row(&mut tables, row);
            longest = longest.max(tables.listed().count());
        }
        self.count_board(&tables);
        if longest > 30 {
            self.count("a list longer than 30");
        }
        self.see("nodes in the longest list", longest as u32);
    }

    /// Plays a script and counts what it reaches; bad ones are counted by what is wrong and by the line that is named.
    pub fn count_script(&mut self, flaw: &str, bytes: &[u8]) {
        self.count(format!("script: {flaw}"));
        let script = match read_script(bytes) {
            Ok(script) => script,
            Err(line @ 0..=2) => return self.count(format!("bad {line}")),
            Err(_) => return self.count("bad, a later line"),
        };
        let tables = Tables::fresh(self.profile, script.nodes, script.seats, script.title);
        self.count_rows(tables, script.rows.into_iter().take(script.count as usize));
    }

    /// Counts what the calls of a history reach, from fresh tables of the tally's profile.
    pub fn count_history(&mut self, random: &mut Random) {
        let Rows { nodes, seats, title, rows } = some_rows(random, &[self.profile]);
        let tables = Tables::fresh(self.profile, nodes, seats, title);
        self.count_rows(tables, rows.into_iter().map(|(_, row)| row));
    }

    /// Counts what is wrong with tables of a name: a table is damaged by a count alone if right counts make it sound, and by
    /// its title alone if the longest title does.
    fn count_tables(&mut self, name: &str, tables: &Tables) {
        let mut counted = tables.clone();
        counted.put_counts();
        let mut titled = tables.clone();
        titled.nodes.iter_mut().skip(TITLE).take(1).for_each(|title| *title = u32::MAX);
        if tables.are_sound() {
            self.count(format!("{name}: sound"));
            self.count(title_name(tables.nodes[TITLE]));
            self.count_holding(tables);
            if tables.nodes[TITLE] == tables.largest_end() {
                self.count("title that is the end of a node");
            }
        } else if counted.are_sound() {
            self.count(format!("{name}: damaged by a count alone"));
        } else if titled.are_sound() {
            self.count(format!("{name}: damaged by its title alone"));
        } else {
            self.count(format!("{name}: damaged otherwise"));
        }
    }

    /// Counts what a step meets: by which rule it goes, how it leaves a seat waiting, in which way one enters, and that
    /// reserved nodes are left alone.
    fn count_step(&mut self, tables: &Tables, seat: u32) {
        let make = |tables: &mut Tables| tables.step(seat);
        let words = tables.seat(seat);
        match words.map(|words| words[PHASE]) {
            Some(RESERVED) => self.count_enter("step in phase 7", tables, seat),
            Some(WITHDRAWN) => self.count_fetch("step", tables, seat, make),
            _ => {}
        }
        let mut after = tables.clone();
        let answer = make(&mut after);
        if let (Some(words), Some(words_after), Ok(answer)) = (words, after.seat(seat), answer) {
            self.count(step_name(tables, words, words_after));
            if let Answer::Wait { first, end, .. } = answer {
                self.count_wait(&after, words_after, first..end);
            }
        }
    }

    /// Counts what a run comes to of a seat that fetches again, and of one that enters.
    fn count_run(&mut self, tables: &Tables, entries: &[u32], budget: u32) {
        let mut tables = tables.clone();
        let mut fetched = BTreeSet::new();
        for &seat in entries.iter().take(budget as usize) {
            let phase = tables.seat(seat).map(|words| words[PHASE]);
            if tables.step(seat).is_err() {
                return;
            }
            match phase {
                Some(WITHDRAWN) => {
                    fetched.insert(seat);
                    self.count("run: a step in phase 6");
                }
                Some(RESERVED) if fetched.contains(&seat) => self.count("run: from phase 6 to 7 and to 1"),
                Some(RESERVED) => self.count("run: a step in phase 7"),
                _ => {}
            }
        }
    }

    /// Counts what a call answers on such tables, and what it meets of the title, of its kind, of reserved seats, and how it
    /// leaves a seat waiting.
    fn count_call(&mut self, case: Case) {
        let answer = outcome(&library_of!(crate::library), &case).answer;
        let Case { tables, call } = &case;
        self.count(match refusal(call, answer) {
            Some(0) => "answer of run: no step".to_string(),
            Some(refusal) => format!("refusal {refusal} of {}", call_name(call)),
            None => accepted_name(call, answer),
        });
        match call {
            &Call::Clear { title } => self.count(clear_name(tables, title)),
            &Call::Reserve { seat, start, end, kind } if tables.are_sound() => {
                self.count_reserve(tables, seat, [start, end, kind]);
                self.count_fetch("reserve", tables, seat, |tables| tables.reserve(seat, start, end, kind));
            }
            &Call::Enter { seat } => self.count_enter("enter", tables, seat),
            &Call::Step { seat, .. } => self.count_step(tables, seat),
            Call::Run { entries, budget } => self.count_run(tables, entries, *budget),
            _ => {}
        }
    }

    /// Counts the tables of a round, and the calls on them: some of each family, and one for each damage, each wrong count
    /// and each wrong title.
    pub fn count_round(&mut self, random: &mut Random) {
        let profile = self.profile;
        let mut count = |random: &mut Random, name: &str, tables: Tables| {
            self.count_tables(name, &tables);
            for call in every_call(random, &tables) {
                self.count_call(Case { tables: tables.clone(), call });
            }
        };
        for _ in 0..10 {
            for (name, family) in FAMILIES {
                let tables = family(random, profile);
                count(random, name, tables);
            }
        }
        for damage in damages(profile) {
            let tables = damaged(random, profile, damage);
            count(random, &format!("damage, {}", damage.0), tables);
        }
        for miscount in miscounts(profile) {
            let tables = miscounted(random, profile, miscount);
            count(random, &format!("count, {}", miscount.0), tables);
        }
        for mistitle in MISTITLES {
            let tables = mistitled(random, profile, mistitle);
            count(random, &format!("title, {}", mistitle.0), tables);
        }
    }

    /// Counts what the lists of a round meet, some to be imported and as many to be exported.
    pub fn count_lists(&mut self, random: &mut Random) {
        for _ in 0..100 {
            let lists = [some_import(random), some_export(random)];
            lists.iter().flat_map(names_met).for_each(|name| self.count(name));
        }
    }

    pub fn of(&self, name: &str) -> u64 {
        self.counts.get(name).copied().unwrap_or(0)
    }

    /// The most that was seen of something at once.
    pub fn most(&self, name: &str) -> u32 {
        self.most.get(name).copied().unwrap_or(0)
    }

    pub fn text(&self) -> String {
        let counts = self.counts.iter().map(|(name, count)| format!("{count:>8}  {name}\n"));
        counts.chain(self.most.iter().map(|(name, most)| format!("{most:>8}  {name}\n"))).collect()
    }
}
