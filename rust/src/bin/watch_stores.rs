//! watch_stores SEED ROUNDS: makes calls on tables of both profiles and on lists by seed, watches each store that they make
//! to these, and holds it to what the call may store: nothing if it is refused, and of the links only those that differ,
//! once each. The machines are the second one and, with the feature `proved`, the proved library; with the feature `other`,
//! another crate of this shape. Of a machine's wrong calls it prints the one on the smallest tables found of each profile,
//! and the one on the shortest lists. Each kind of call is one that passed if it was met and never wrong. The last line is
//! 'N passed, M failed'.

use second::damages::{damaged, damages};
use second::driver::{every_call, some_history, Call, Case, Family, Library};
use second::lists::{some_export, some_import, Lists};
use second::machine::Profile::{self, Ordinary};
use second::machine::{IDLE, PROFILES, RESERVED, TITLE, WALKING, WITHDRAWN};
use second::random::Random;
use second::shrink::{case_text, shrink, shrink_lists};
use second::stores::{Watcher, NOT_HERE};
use second::storing::{call_kinds, judge, watched, TAKEN_OUT_OF_REACHED};
use second::storing_lists::{can_be_watched, judge_lists, watched_lists, LIST_KINDS};
use second::tables::{any_words, full_lists, kinds, many_holders, many_reserved, many_walkers, sound_words, Tables};
use std::cell::RefCell;
use std::collections::BTreeMap;
use std::process::exit;

#[cfg(feature = "other")]
const MACHINES: &[(&str, Library)] = &[("other", second::library_of!(other::library))];

#[cfg(not(feature = "other"))]
use second::driver::MACHINES;

/// How often a kind of call was met, and how often it was wrong.
#[derive(Clone, Copy, Default)]
struct Count {
    met: u64,
    wrong: u64,
}

/// What was seen of a machine's calls of one profile, and of those on lists beside the ordinary ones.
struct Watch {
    watcher: RefCell<Watcher>,
    library: Library,
    profile: Profile,
    kinds: BTreeMap<&'static str, Count>,
    all: Count,
    refused: u64,
    took_out: u64,
    links: u64,
    stores: u64,
    /// the wrong call on the smallest tables
    smallest_wrong: Option<Case>,
    /// the first wrong call on lists
    wrong_lists: Option<Lists>,
}

impl Watch {
    fn new(watcher: Watcher, library: Library, profile: Profile) -> Watch {
        Watch {
            watcher: RefCell::new(watcher),
            library,
            profile,
            kinds: BTreeMap::new(),
            all: Count::default(),
            refused: 0,
            took_out: 0,
            links: 0,
            stores: 0,
            smallest_wrong: None,
            wrong_lists: None,
        }
    }

    fn count_kind(&mut self, kind: &'static str, wrong: u64) {
        let count = self.kinds.entry(kind).or_default();
        count.met += 1;
        count.wrong += wrong;
    }

    /// Makes a call, on tables reached from fresh ones or on others, and gives the tables that it leaves.
    fn call(&mut self, case: Case, reached: bool) -> Tables {
        let watched = watched(&mut self.watcher.borrow_mut(), &self.library, &case);
        let mut judged = judge(&case, &watched);
        if reached && judged.links > 0 {
            judged.kinds.push(TAKEN_OUT_OF_REACHED);
        }
        let wrong = u64::from(judged.wrong.is_some());
        self.all.met += 1;
        self.all.wrong += wrong;
        judged.kinds.into_iter().for_each(|kind| self.count_kind(kind, wrong));
        self.refused += u64::from(judged.refused);
        self.took_out += u64::from(judged.links > 0);
        self.links += judged.links as u64;
        self.stores += watched.stores.len() as u64;
        let smallest = self.smallest_wrong.as_ref().map_or(usize::MAX, size);
        if judged.wrong.is_some() && size(&case) < smallest {
            self.smallest_wrong = Some(case);
        }
        watched.tables
    }

    /// Moves a list, if it can be watched.
    fn move_list(&mut self, lists: Lists) {
        if !can_be_watched(&lists) {
            return;
        }
        let watched = watched_lists(&mut self.watcher.borrow_mut(), &self.library, &lists);
        let (kind, wrong) = judge_lists(&lists, &watched);
        self.all.met += 1;
        self.all.wrong += u64::from(wrong.is_some());
        self.count_kind(kind, u64::from(wrong.is_some()));
        self.refused += u64::from(watched.moved.0 != 0);
        self.stores += watched.stores.len() as u64;
        if wrong.is_some() && self.wrong_lists.is_none() {
            self.wrong_lists = Some(lists);
        }
    }

    fn lists(&mut self, random: &mut Random) {
        self.move_list(some_import(random));
        self.move_list(some_export(random));
    }

    fn history(&mut self, random: &mut Random) {
        let (mut tables, calls) = some_history(random, &[self.profile]);
        for (_, call) in calls {
            tables = self.call(Case { tables, call }, true);
        }
    }

    fn each(&mut self, tables: &Tables, calls: impl IntoIterator<Item = Call>) {
        for call in calls {
            self.call(Case { tables: tables.clone(), call }, false);
        }
    }

    /// Each call once; but clear on long tables, which are cleared byte by byte, only now and then.
    fn every_call(&mut self, random: &mut Random, tables: Tables) {
        let clears = tables.nodes.len() < 100 || random.percent(5);
        let calls = every_call(random, &tables);
        self.each(&tables, calls.into_iter().filter(|call| clears || !matches!(call, Call::Clear { .. })));
    }

    fn family(&mut self, random: &mut Random, family: Family) {
        let tables = family(random, self.profile);
        self.every_call(random, tables);
    }

    fn fetches(&mut self, random: &mut Random) {
        let tables = full_lists(random, self.profile);
        let calls = some_fetches(random, &tables);
        self.each(&tables, calls);
    }

    fn entries(&mut self, random: &mut Random) {
        let tables = many_reserved(random, self.profile);
        let enters = tables.seats_in(RESERVED).take(2).map(|(seat, _)| Call::Enter { seat });
        self.each(&tables, enters.chain(some_steps(&tables, RESERVED)));
    }

    fn walks(&mut self, random: &mut Random) {
        let tables = many_walkers(random, self.profile);
        self.each(&tables, some_steps(&tables, WALKING));
    }

    fn damages(&mut self, random: &mut Random) {
        for damage in damages(self.profile) {
            let tables = damaged(random, self.profile, damage);
            self.every_call(random, tables);
        }
    }

    /// The kinds of which each must be met.
    fn due_kinds(&self) -> impl Iterator<Item = &'static str> {
        let of_lists = if self.profile == Ordinary { &LIST_KINDS[..] } else { &[] };
        call_kinds(self.profile).chain(of_lists.iter().copied())
    }

    fn text(&self, name: &str) -> String {
        let Count { met, wrong } = self.all;
        let mut text = format!(
            "{name}: {met} calls watched, {} refused, {} took marked nodes out; {} stores, {} links due; {wrong} calls wrong\n",
            self.refused, self.took_out, self.stores, self.links
        );
        for kind in self.due_kinds() {
            let Count { met, wrong } = self.count(kind);
            let verdict = match (met, wrong) {
                (0, _) => ": NEVER MET".to_string(),
                (_, 0) => String::new(),
                _ => format!(": {wrong} WRONG"),
            };
            text += &format!("{met:>8}  {kind}{verdict}\n");
        }
        text
    }

    fn count(&self, kind: &str) -> Count {
        self.kinds.get(kind).copied().unwrap_or_default()
    }

    fn passed(&self) -> usize {
        self.due_kinds().map(|kind| self.count(kind)).filter(|count| count.met > 0 && count.wrong == 0).count()
    }

    /// The kinds that did not pass; if a call was wrong and is of no kind, at least one.
    fn failed(&self) -> usize {
        (self.due_kinds().count() - self.passed()).max(usize::from(self.all.wrong > 0))
    }

    /// The smallest tables found on which a call is wrong, from some on which one is.
    fn wrong_text(&self, case: Case) -> String {
        let seen = |case: &Case| watched(&mut self.watcher.borrow_mut(), &self.library, case);
        let smallest = shrink(case, |case| judge(case, &seen(case)).wrong.is_some());
        let watched = seen(&smallest);
        let mut text = format!("wrong:\n{}", case_text(&smallest));
        text += &format!("answer  {} {}\n", watched.answer >> 32, watched.answer as u32);
        let stores: Vec<String> = watched.stores.iter().map(|store| store.to_string()).collect();
        text += &format!("stores  {}\n", stores.join("; "));
        text + &format!("wrong   {}\n", judge(&smallest, &watched).wrong.unwrap_or_default())
    }

    /// The shortest lists found on which a call is wrong, from some on which one is.
    fn wrong_lists_text(&self, lists: Lists) -> String {
        let judged = |lists: &Lists| {
            let watched = watched_lists(&mut self.watcher.borrow_mut(), &self.library, lists);
            (watched.moved, judge_lists(lists, &watched).1)
        };
        let shortest = shrink_lists(lists, |lists| judged(lists).1.is_some());
        let ((refusal, place), wrong) = judged(&shortest);
        format!("wrong:\n{shortest:?}\nrefusal {refusal}, place {place}\nwrong   {}\n", wrong.unwrap_or_default())
    }
}

fn size(case: &Case) -> usize {
    case.tables.nodes.len() + case.tables.seats.len()
}

/// Steps and runs of two seats in a phase.
fn some_steps(tables: &Tables, phase: u32) -> Vec<Call> {
    let steps = |seat| [Call::Step { seat, shared: [0; 2] }, Call::Run { entries: vec![seat], budget: 1 }];
    tables.seats_in(phase).take(2).flat_map(|(seat, _)| steps(seat)).collect()
}

/// Calls by which seats fetch: claims that fit, of seats that are idle, and steps and runs of withdrawn ones.
fn some_fetches(random: &mut Random, tables: &Tables) -> Vec<Call> {
    let title = tables.nodes[TITLE];
    let reserves = tables.seats_in(IDLE).take(2).map(|(seat, _)| {
        let start = random.below(title);
        let end = random.between(start + 1, title);
        Call::Reserve { seat, start, end, kind: random.pick(kinds(tables.profile)) }
    });
    reserves.chain(some_steps(tables, WITHDRAWN)).collect()
}

type Part = (u32, fn(&mut Watch, &mut Random));

/// What one round watches, and how often.
const FAMILIES: [Part; 9] = [
    (2, Watch::history),
    (60, Watch::fetches),
    (10, |watch, random| watch.family(random, any_words)),
    (10, |watch, random| watch.family(random, sound_words)),
    (10, |watch, random| watch.family(random, many_holders)),
    (10, |watch, random| watch.family(random, many_reserved)),
    (10, Watch::entries),
    (10, Watch::walks),
    (1, Watch::damages),
];

/// Lists of either way have numbers of their own, so that the tables of a seed are what they were before there were lists.
const LISTS: u32 = 20;

fn number(argument: Option<String>) -> u64 {
    argument.and_then(|digits| digits.parse().ok()).expect("watch_stores SEED ROUNDS")
}

/// What the rounds of a seed show of a machine's calls of one profile.
fn watch(name: &str, library: Library, profile: Profile, seed: u64, rounds: u64) -> Watch {
    let watcher = Watcher::new().unwrap_or_else(|| {
        println!("not run: {NOT_HERE}\n0 passed, 0 failed");
        exit(0);
    });
    let mut watch = Watch::new(watcher, library, profile);
    let (mut random, mut of_lists) = (Random::new(seed), Random::new(!seed));
    for _ in 0..rounds {
        for (times, watch_some) in FAMILIES {
            (0..times).for_each(|_| watch_some(&mut watch, &mut random));
        }
        if profile == Ordinary {
            (0..LISTS).for_each(|_| watch.lists(&mut of_lists));
        }
    }
    print!("{}", watch.text(&format!("{name}, {profile:?}")));
    if let Some(case) = watch.smallest_wrong.take() {
        print!("{}", watch.wrong_text(case));
    }
    if let Some(lists) = watch.wrong_lists.take() {
        print!("{}", watch.wrong_lists_text(lists));
    }
    watch
}

fn main() {
    let mut arguments = std::env::args().skip(1);
    let (seed, rounds) = (number(arguments.next()), number(arguments.next()));
    let (mut passed, mut failed) = (0, 0);
    for (name, library) in MACHINES {
        for profile in PROFILES {
            let watch = watch(name, *library, profile, seed, rounds);
            passed += watch.passed();
            failed += watch.failed();
        }
    }
    println!("{passed} passed, {failed} failed");
    exit(i32::from(failed > 0));
}
