//! A smaller case on which two machines still differ: fewer nodes, seats, entries and rows, and smaller words; or a shorter
//! script; or lists of fewer records. Nothing is assumed of the tables; what does not fit the layout is shortened word by word.

use crate::driver::{outcome, Call, Case, Difference, Driver, Library};
use crate::library::CONTENTS_WORDS;
use crate::lists::{Lists, Way};
use crate::machine::{Profile, CUR, HEAD, NEXT, NODE_WORDS, OWN, ROW_WORDS};
use crate::moving::moving;
use crate::posix::RECORD_WORDS;
use crate::reading::reading;
use crate::tables::Tables;

fn without<Word: Copy>(words: &[Word], from: usize, count: usize) -> Vec<Word> {
    [&words[..from], &words[from + count..]].concat()
}

/// The tables without one of their nodes. Names of later nodes fall by one, its own become 0.
fn without_node(case: &Case, index: usize) -> Case {
    let node = index as u32 + 1;
    let renamed = |name: u32| name - u32::from(name > node) - if name == node { name } else { 0 };
    let mut smaller = case.clone();
    let Tables { profile, nodes, seats } = &mut smaller.tables;
    let before = profile.before_nodes();
    *nodes = without(nodes, before + NODE_WORDS * index, NODE_WORDS);
    nodes[HEAD] = renamed(nodes[HEAD]);
    for words in nodes[before..].chunks_exact_mut(NODE_WORDS) {
        words[NEXT] = renamed(words[NEXT]);
    }
    for words in seats.chunks_exact_mut(profile.seat_words()) {
        for name in &mut words[OWN..=CUR] {
            *name = renamed(*name);
        }
    }
    smaller
}

/// The tables without one of their seats. Numbers of later seats fall by one, and so does the count that it is in: right counts
/// stay right.
fn without_seat(case: &Case, index: usize) -> Case {
    let renumber = |seat: &mut u32| *seat -= u32::from(*seat > index as u32);
    let mut smaller = case.clone();
    let width = case.tables.profile.seat_words();
    smaller.tables.seats = without(&case.tables.seats, width * index, width);
    if let Some(at) = case.tables.seat(index as u32).and_then(|seat| case.tables.counted_at(seat)) {
        smaller.tables.nodes[at] = smaller.tables.nodes[at].saturating_sub(1);
    }
    match &mut smaller.call {
        Call::Reserve { seat, .. } | Call::Enter { seat } | Call::Step { seat, .. } | Call::Release { seat } => {
            renumber(seat)
        }
        Call::Run { entries, .. } => entries.iter_mut().for_each(renumber),
        Call::Clear { .. } | Call::Board { .. } | Call::FreeCount => {}
    }
    smaller
}

/// The lists of words of a case that may lose their last word.
fn lists(case: &mut Case) -> Vec<&mut Vec<u32>> {
    let mut lists = vec![&mut case.tables.nodes, &mut case.tables.seats];
    match &mut case.call {
        Call::Run { entries: list, .. } | Call::Board { rows: list } => lists.push(list),
        _ => {}
    }
    lists
}

/// Every word of a case, those of its call too.
fn words(case: &mut Case) -> Vec<&mut u32> {
    let mut words: Vec<&mut u32> = case.tables.nodes.iter_mut().chain(&mut case.tables.seats).collect();
    match &mut case.call {
        Call::Reserve { seat, start, end, kind } => words.extend([seat, start, end, kind]),
        Call::Step { seat, shared } => words.extend([seat].into_iter().chain(shared)),
        Call::Enter { seat } | Call::Release { seat } => words.push(seat),
        Call::Run { entries, budget } => words.extend(entries.iter_mut().chain([budget])),
        Call::Board { rows } => words.extend(rows),
        Call::Clear { title } => words.push(title),
        Call::FreeCount => {}
    }
    words
}

/// The smallest case found so far on which the machines differ.
struct Search<Differs> {
    smallest: Case,
    differs: Differs,
}

impl<Differs: Fn(&Case) -> bool> Search<Differs> {
    fn take(&mut self, smaller: Case) -> bool {
        let taken = (self.differs)(&smaller);
        if taken {
            self.smallest = smaller;
        }
        taken
    }

    /// The case with one of its lists (nodes, seats, and entries or rows) without its last word.
    fn shorten(&mut self, list: usize) -> bool {
        let mut smaller = self.smallest.clone();
        let shorter = lists(&mut smaller).get_mut(list).map_or(false, |list| list.pop().is_some());
        shorter && self.take(smaller)
    }

    fn leave_entry_out(&mut self, index: usize) -> bool {
        let mut smaller = self.smallest.clone();
        if let Call::Run { entries, .. } = &mut smaller.call {
            entries.remove(index);
        }
        self.take(smaller)
    }

    /// One of the words lowered: to 0, else by half of it, else by a quarter, and so on.
    fn lower(&mut self, at: usize) -> bool {
        let word = *words(&mut self.smallest)[at];
        let falls = (0..32).map(|halvings| word >> halvings).take_while(|&fall| fall > 0);
        for fall in falls {
            let mut smaller = self.smallest.clone();
            *words(&mut smaller)[at] -= fall;
            if self.take(smaller) {
                return true;
            }
        }
        false
    }

    /// Tries everything once, and says whether anything got smaller.
    fn pass(&mut self) -> bool {
        let mut taken = false;
        for index in (0..self.smallest.tables.each_node().len()).rev() {
            taken |= self.take(without_node(&self.smallest, index));
        }
        for index in (0..self.smallest.tables.each_seat().len()).rev() {
            taken |= self.take(without_seat(&self.smallest, index));
        }
        let entries = if let Call::Run { entries, .. } = &self.smallest.call { entries.len() } else { 0 };
        for index in (0..entries).rev() {
            taken |= self.leave_entry_out(index);
        }
        for list in 0..3 {
            while self.shorten(list) {
                taken = true;
            }
        }
        for at in 0..words(&mut self.smallest).len() {
            taken |= self.lower(at);
        }
        taken
    }
}

/// The smallest case found on which the machines differ, from one on which they do.
pub fn shrink(case: Case, differs: impl Fn(&Case) -> bool) -> Case {
    let mut search = Search { smallest: case, differs };
    while search.pass() {}
    search.smallest
}

fn lines(script: &[u8]) -> Vec<&[u8]> {
    script.split_inclusive(|&byte| byte == b'\n').collect()
}

fn body_count(script: &[u8]) -> usize {
    lines(script).len().saturating_sub(1)
}

/// Where K stands on the first line.
const ROW_COUNT: usize = 2;

/// The script without some of its bodies, K lowered by as many if the first line has a number there.
fn without_bodies(script: &[u8], from: usize, count: usize) -> Vec<u8> {
    let kept = without(&lines(script), 1 + from, count);
    let first = String::from_utf8_lossy(kept[0]);
    let mut fields: Vec<String> = first.trim_end().split(' ').map(str::to_string).collect();
    let contents = match fields.get(ROW_COUNT).map(|rows| rows.parse::<usize>()) {
        Some(Ok(rows)) => {
            fields[ROW_COUNT] = rows.saturating_sub(count).to_string();
            format!("{}\n", fields.join(" ")).into_bytes()
        }
        _ => kept[0].to_vec(),
    };
    [contents, kept[1..].concat()].concat()
}

/// The script with parts left out where the machines still differ: first all of it, then halves, down to single pieces.
fn leave_out(
    mut script: Vec<u8>,
    pieces: fn(&[u8]) -> usize,
    without: fn(&[u8], usize, usize) -> Vec<u8>,
    differs: &impl Fn(&[u8]) -> bool,
) -> Vec<u8> {
    let mut part = pieces(&script);
    while part > 0 {
        let mut from = 0;
        while from + part <= pieces(&script) {
            let shorter = without(&script, from, part);
            if differs(&shorter) {
                script = shorter;
            } else {
                from += part;
            }
        }
        part /= 2;
    }
    script
}

/// The shortest script found on which the machines differ, from one on which they do.
pub fn shrink_script(script: Vec<u8>, differs: impl Fn(&[u8]) -> bool) -> Vec<u8> {
    let fewer_bodies = leave_out(script, body_count, without_bodies, &differs);
    leave_out(fewer_bodies, <[u8]>::len, without, &differs)
}

/// The lists without some of the records that are moved, and without room for as many if that is asked.
fn without_records(lists: &Lists, from: usize, count: usize, less_room: bool) -> Lists {
    let (from, count) = (RECORD_WORDS * from, RECORD_WORDS * count);
    let mut smaller = lists.clone();
    let room = |words: usize| if less_room { words.saturating_sub(count) } else { words };
    match lists.way {
        Way::Import => {
            smaller.locks = without(&lists.locks, from, count);
            smaller.claims.truncate(room(lists.claims.len()));
        }
        Way::Export => {
            smaller.claims = without(&lists.claims, from, count);
            smaller.locks.truncate(room(lists.locks.len()));
        }
    }
    smaller
}

/// All records left out, halves of them, down to single ones.
fn of_fewer_records(lists: &Lists) -> impl Iterator<Item = Lists> + '_ {
    let records = lists.records();
    let parts = std::iter::successors(Some(records), |part| Some(part / 2)).take_while(|&part| part > 0);
    let places = parts.flat_map(move |part| (0..=records - part).step_by(part).map(move |from| (from, part)));
    places.flat_map(move |(from, part)| [true, false].map(|less_room| without_records(lists, from, part, less_room)))
}

/// One of the lists without its last word.
fn of_fewer_words(lists: &Lists) -> impl Iterator<Item = Lists> {
    let (mut fewer_locks, mut fewer_claims) = (lists.clone(), lists.clone());
    let shorter = [fewer_locks.locks.pop().is_some(), fewer_claims.claims.pop().is_some()];
    [fewer_locks, fewer_claims].into_iter().zip(shorter).filter(|(_, shorter)| *shorter).map(|(lists, _)| lists)
}

/// The number brought nearer to 0: to 0 itself, else by half of it, and so on.
fn nearer_to_0(number: i64) -> impl Iterator<Item = i64> {
    let falls = (0..63).map(move |halvings| number / (1 << halvings)).take_while(|&fall| fall != 0);
    falls.map(move |fall| number - fall)
}

/// One of the numbers nearer to 0, the title's first.
fn of_smaller_numbers(lists: &Lists) -> impl Iterator<Item = Lists> + '_ {
    let with = move |change: &dyn Fn(&mut Lists)| {
        let mut smaller = lists.clone();
        change(&mut smaller);
        smaller
    };
    let title = nearer_to_0(lists.title.into()).map(move |title| with(&|lists| lists.title = title as u32));
    let locks =
        lists.locks.iter().enumerate().flat_map(move |(at, &number)| {
            nearer_to_0(number).map(move |number| with(&|lists| lists.locks[at] = number))
        });
    let claims = lists.claims.iter().enumerate().flat_map(move |(at, &number)| {
        nearer_to_0(number.into()).map(move |number| with(&|lists| lists.claims[at] = number as u32))
    });
    title.chain(locks).chain(claims)
}

/// The smallest lists found on which the machines differ, from some on which they do.
pub fn shrink_lists(mut lists: Lists, differs: impl Fn(&Lists) -> bool) -> Lists {
    loop {
        let mut smaller = of_fewer_records(&lists).chain(of_fewer_words(&lists)).chain(of_smaller_numbers(&lists));
        match smaller.find(|smaller| differs(smaller)) {
            Some(found) => {
                drop(smaller);
                lists = found;
            }
            None => break,
        }
    }
    lists
}

fn table_text<Word: ToString>(words: &[Word], first: usize, width: usize) -> String {
    let (head, rest) = words.split_at(first.min(words.len()));
    let parts = std::iter::once(head).chain(rest.chunks(width)).filter(|part| !part.is_empty());
    let texts: Vec<String> =
        parts.map(|part| part.iter().map(Word::to_string).collect::<Vec<String>>().join(" ")).collect();
    texts.join(" | ")
}

fn node_text(profile: Profile, nodes: &[u32]) -> String {
    table_text(nodes, profile.before_nodes(), NODE_WORDS)
}

fn seat_text(profile: Profile, seats: &[u32]) -> String {
    table_text(seats, 0, profile.seat_words())
}

/// The tables and the call on them.
pub fn case_text(case: &Case) -> String {
    let Tables { profile, nodes, seats } = &case.tables;
    let (nodes, seats) = (node_text(*profile, nodes), seat_text(*profile, seats));
    format!("nodes   {nodes}\nseats   {seats}\ncall    {profile:?}, {:?}\n", case.call)
}

/// The case, what each machine answered, and the tables each left behind.
fn outcomes_text(case: &Case, ours: &Library, theirs: &Library) -> String {
    let mut text = case_text(case);
    let profile = case.tables.profile;
    for (name, library) in [("second", ours), ("other", theirs)] {
        let after = outcome(library, case);
        text += &format!("{name}: answer {} {}\n", after.answer >> 32, after.answer as u32);
        text += &format!("  nodes {}\n", node_text(profile, after.nodes.words()));
        text += &format!("  seats {}\n", seat_text(profile, after.seats.words()));
        text += &match case.call {
            Call::Board { .. } => {
                format!("  rows  {}\n  covered {}\n", table_text(after.rows.words(), 0, ROW_WORDS), after.covered)
            }
            Call::Step { .. } => format!("  shared {}\n", table_text(after.shared.words(), 0, 2)),
            _ => String::new(),
        };
    }
    text
}

/// The script, and what each machine read and printed.
fn script_text(script: &[u8], ours: &Library, theirs: &Library) -> String {
    let mut text = format!("script  \"{}\"\n", script.escape_ascii());
    for (name, library) in [("second", ours), ("other", theirs)] {
        let after = reading(library, script);
        let (numbers, printed) = (after.numbers.words(), after.printed.words());
        let rows = script.iter().filter(|&&byte| byte == b'\n').count();
        let shown = numbers.len().min(CONTENTS_WORDS + 5 * rows);
        text += &format!("{name}: answer {} {}\n", after.answer >> 32, after.answer as u32);
        text += &format!("  numbers {} ...\n", table_text(&numbers[..shown], CONTENTS_WORDS, 5));
        text += &format!("  printed {} bytes: \"{}\"\n", after.length, printed[..after.length as usize].escape_ascii());
    }
    text
}

/// The lists, and how each machine moved them.
fn lists_text(lists: &Lists, ours: &Library, theirs: &Library) -> String {
    let words = |locks: &[i64], claims: &[u32]| {
        let [locks, claims] = [table_text(locks, 0, RECORD_WORDS), table_text(claims, 0, RECORD_WORDS)];
        format!("  locks  {locks}\n  claims {claims}\n")
    };
    let mut text = format!("{:?}, title {}\n{}", lists.way, lists.title, words(&lists.locks, &lists.claims));
    for (name, library) in [("second", ours), ("other", theirs)] {
        let after = moving(library, lists);
        let (refusal, place) = after.moved;
        text += &format!("{name}: refusal {refusal}, place {place}\n");
        text += &words(after.locks.words(), after.claims.words());
    }
    text
}

/// The smallest tables, the shortest script or the shortest lists found on which the machines differ, and what each of them
/// does.
pub fn smallest_text(driver: &Driver, difference: Difference) -> String {
    let (ours, theirs) = (&driver.ours, &driver.theirs);
    match difference {
        Difference::Call(case) => outcomes_text(&shrink(case, |case| driver.differs(case)), ours, theirs),
        Difference::Script(script) => {
            script_text(&shrink_script(script, |script| !driver.reads_alike(script)), ours, theirs)
        }
        Difference::Lists(lists) => lists_text(&shrink_lists(lists, |lists| !driver.moves_alike(lists)), ours, theirs),
    }
}
