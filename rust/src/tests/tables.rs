//! The machine on tables of both profiles that no history need have reached, against slow renderings of the same sentences of
//! documents 01 and 02.

use crate::damages::{damaged, damages, miscounted, miscounts, mistitled, MISTITLES};
use crate::driver::Family;
use crate::machine::Profile::{self, Ordinary, Sheet};
use crate::machine::{Answer, PROFILES};
use crate::random::Random;
use crate::tables::{
    any_words, full_lists, many_holders, many_reserved, many_waiters, many_walkers, sound_words, Tables,
};
use crate::tally::Tally;
use crate::tests::layout::{counts_kept, counts_over_seats, place, word, CUR, END, HEAD, KIND, MARK, NEXT, NODE_WORDS};
use crate::tests::layout::{title_is_damage, OWN, PHASE, PREV, SEAT_WORDS, START, TITLE, WORDS_BEFORE_NODES};
use crate::tests::{refused_by_every_call, BOARDS, ENTRIES, ENTRIES_NEVER_REACHED, LONGEST_TITLE, RESERVES, TITLES};
use crate::tests::{WAITS, WAITS_NEVER_REACHED};

fn node_count(nodes: &[u32]) -> usize {
    nodes.len().saturating_sub(WORDS_BEFORE_NODES) / NODE_WORDS
}

fn names(seat: &[u32]) -> [u32; 3] {
    [seat[OWN], seat[PREV], seat[CUR]]
}

fn lengths_fit(nodes: &[u32], seats: &[u32]) -> bool {
    nodes.len() == WORDS_BEFORE_NODES + NODE_WORDS * node_count(nodes)
        && (1..=256).contains(&node_count(nodes))
        && seats.len() % SEAT_WORDS == 0
        && (1..=64).contains(&(seats.len() / SEAT_WORDS))
}

/// Sound shape, clause by clause; a sheet's "allowing phases 0, 1, 2, 5 and 7 and kind 2 only".
fn is_sound(Tables { profile, nodes, seats }: &Tables) -> bool {
    if !lengths_fit(nodes, seats) {
        return false;
    }
    let (kinds, phases): (&[u32], &[u32]) = match profile {
        Ordinary => (&[1, 2], &[0, 1, 2, 3, 4, 5, 6, 7]),
        Sheet => (&[2], &[0, 1, 2, 5, 7]),
    };
    let count = node_count(nodes) as u32;
    let named = |name: u32| name == 0 || (name <= count && kinds.contains(&word(nodes, name, KIND)));
    let nodes_fit = (1..=count).all(|node| {
        let [start, end, kind, next, mark] = [START, END, KIND, NEXT, MARK].map(|field| word(nodes, node, field));
        let zeros = nodes[place(node, 0)..][..NODE_WORDS].iter().all(|&word| word == 0);
        zeros || (kinds.contains(&kind) && start < end && named(next) && mark <= 1)
    });
    let seats_fit = seats.chunks(SEAT_WORDS).all(|seat| match seat[PHASE] {
        0 => seat.iter().all(|&word| word == 0),
        phase => {
            phases.contains(&phase)
                && seat[OWN] != 0
                && names(seat).into_iter().all(named)
                && (![5, 6, 7].contains(&phase) || [seat[PREV], seat[CUR]] == [0, 0])
                && (![2, 4].contains(&phase) || seat[CUR] != 0)
        }
    });
    if !nodes_fit || !seats_fit || !named(nodes[HEAD]) || title_is_damage(nodes) {
        return false;
    }
    if counts_kept(nodes) != counts_over_seats(nodes, seats) {
        return false;
    }
    let mut met = nodes[HEAD];
    for _ in 0..count {
        met = if met == 0 { 0 } else { word(nodes, met, NEXT) };
    }
    met == 0
}

/// Whether a node is met by following next from another, itself included.
fn reaches(nodes: &[u32], from: u32, wanted: u32) -> bool {
    let mut met = from;
    for _ in 0..=nodes.len() {
        if met == 0 || met == wanted {
            break;
        }
        met = word(nodes, met, NEXT);
    }
    met == wanted
}

/// The free nodes by the rule, node by node.
fn free_nodes(Tables { nodes, seats, .. }: &Tables, asking: Option<usize>) -> Vec<u32> {
    let others = seats.chunks(SEAT_WORDS).enumerate().filter(|(number, _)| Some(*number) != asking);
    let mut sources: Vec<u32> = others.flat_map(|(_, seat)| names(seat)).collect();
    sources.push(nodes[HEAD]);
    let reached = |node: u32| sources.iter().any(|&from| reaches(nodes, from, node));
    (1..=node_count(nodes) as u32).filter(|&node| !reached(node)).collect()
}

/// The table with the marked nodes taken out of the list.
fn taken_out(tables: &Tables) -> Vec<u32> {
    let mut after = tables.nodes.clone();
    let mut link = HEAD;
    for node in tables.listed().filter(|&node| word(&tables.nodes, node, MARK) == 0) {
        after[link] = node;
        link = place(node, NEXT);
    }
    after[link] = 0;
    after
}

/// Reserve on sound tables with arguments that are not refused, or nothing for refusal 8.
fn reserved(tables: &Tables, seat: usize, claim: [u32; 3]) -> Option<Tables> {
    let mut after = tables.clone();
    let mut free = free_nodes(&after, Some(seat));
    if free.is_empty() {
        after.nodes = taken_out(tables);
        free = free_nodes(&after, Some(seat));
    }
    let node = *free.first()?;
    let [start, end, kind] = claim;
    for (field, value) in [(START, start), (END, end), (KIND, kind), (NEXT, 0), (MARK, 0)] {
        after.nodes[place(node, field)] = value;
    }
    for (field, value) in [(PHASE, 7), (OWN, node), (PREV, 0), (CUR, 0)] {
        after.seats[SEAT_WORDS * seat + field] = value;
    }
    Some(after)
}

/// The families of tables that are sound.
const SOUND: [Family; 6] = [sound_words, many_holders, many_waiters, many_reserved, many_walkers, full_lists];

#[test]
fn sound_shape_is_what_its_clauses_say() {
    let mut random = Random::new(1);
    for (profile, least) in [(Ordinary, 400), (Sheet, 200)] {
        let mut sound_ones = 0;
        for _ in 0..40_000 {
            let tables = any_words(&mut random, profile);
            sound_ones += u32::from(is_sound(&tables));
            assert_eq!(tables.are_sound(), is_sound(&tables), "{tables:?}");
        }
        assert!(sound_ones > least, "{sound_ones}");
        for tables in (0..2_000).flat_map(|_| SOUND.map(|family| family(&mut random, profile))) {
            assert!(is_sound(&tables) && tables.are_sound(), "{tables:?}");
        }
    }
}

/// What is sound for one profile, lent to the other: a sheet is sound where there are readers, and of the others some are
/// sheets.
#[test]
fn sound_tables_of_one_profile_are_what_the_clauses_of_the_other_say() {
    let mut random = Random::new(40);
    let mut found = [0, 0];
    for tables in (0..2_000).flat_map(|_| SOUND.map(|family| family(&mut random, Ordinary))) {
        let lent = Tables { profile: Sheet, ..tables };
        assert_eq!(lent.are_sound(), is_sound(&lent), "{lent:?}");
        found[usize::from(lent.are_sound())] += 1;
    }
    assert!(found.iter().all(|&times| times >= 500), "{found:?}");
    for tables in (0..1_000).flat_map(|_| SOUND.map(|family| family(&mut random, Sheet))) {
        assert!(Tables { profile: Ordinary, ..tables }.are_sound());
    }
}

#[test]
fn many_holders_meet_in_every_way() {
    let mut random = Random::new(5);
    for profile in PROFILES {
        let mut tally = Tally::new(profile);
        (0..1_000).for_each(|_| tally.count_board(&many_holders(&mut random, profile)));
        for name in BOARDS {
            assert!(tally.of(name) >= 100, "{name}");
        }
    }
}

#[test]
fn each_damage_alone_is_refused_and_nothing_changes() {
    let mut random = Random::new(2);
    for profile in PROFILES {
        for damage in (0..20).flat_map(|_| damages(profile)) {
            let tables = damaged(&mut random, profile, damage);
            assert!(!is_sound(&tables), "{}", damage.0);
            refused_by_every_call(damage.0, &tables);
        }
    }
}

#[test]
fn each_wrong_count_alone_is_refused_and_nothing_changes() {
    let mut random = Random::new(8);
    for profile in PROFILES {
        for miscount in (0..60).flat_map(|_| miscounts(profile)) {
            let mut tables = miscounted(&mut random, profile, miscount);
            refused_by_every_call(miscount.0, &tables);
            tables.put_counts();
            assert!(is_sound(&tables), "{}", miscount.0);
        }
    }
}

#[test]
fn each_wrong_title_alone_is_refused_and_nothing_changes() {
    let mut random = Random::new(15);
    for profile in PROFILES {
        for mistitle in (0..60).flat_map(|_| MISTITLES) {
            let mut tables = mistitled(&mut random, profile, mistitle);
            assert!(title_is_damage(&tables.nodes), "{}", mistitle.0);
            refused_by_every_call(mistitle.0, &tables);
            tables.nodes[TITLE] = LONGEST_TITLE;
            assert!(is_sound(&tables), "{}", mistitle.0);
        }
    }
}

/// A tally of so many rounds of tables of a profile: each is what its name says.
pub fn tally_of_rounds(profile: Profile, rounds: u64) -> Tally {
    let mut random = Random::new(1);
    let mut tally = Tally::new(profile);
    (0..rounds).for_each(|_| tally.count_round(&mut random));
    for (name, _) in damages(profile) {
        assert_eq!(tally.of(&format!("damage, {name}: damaged otherwise")), rounds, "{name}");
    }
    for (name, _) in miscounts(profile) {
        assert_eq!(tally.of(&format!("count, {name}: damaged by a count alone")), rounds, "{name}");
    }
    for (name, _) in MISTITLES {
        assert_eq!(tally.of(&format!("title, {name}: damaged by its title alone")), rounds, "{name}");
    }
    for name in ["sound words", "many holders", "many waiters", "many reserved", "many walkers", "full lists"] {
        assert_eq!(tally.of(&format!("{name}: sound")), 10 * rounds, "{name}");
    }
    tally
}

#[test]
fn the_tables_of_a_seed_are_what_their_names_say() {
    let tally = tally_of_rounds(Ordinary, 100);
    for name in ["the most readers holding at once", "the most writers holding at once"] {
        assert!(tally.most(name) >= 20, "{name}");
    }
    let clears = [
        "clear: lengths wrong, and count 0",
        "clear: lengths wrong",
        "clear: count 0",
        "clear: the same title",
        "clear: a title where there was none",
        "clear: another title, which a claim there ends beyond",
        "clear: another title on tables with claims",
        "clear: another title on tables without claims",
        "title that is the end of a node",
    ];
    let entered_by_step = ENTRIES.iter().chain(&ENTRIES_NEVER_REACHED).filter(|name| !name.contains("refused"));
    let entered_by_step: Vec<String> = entered_by_step.map(|name| name.replace("enter:", "step in phase 7:")).collect();
    let runs = ["run: a step in phase 6", "run: a step in phase 7", "run: from phase 6 to 7 and to 1"];
    let fetches =
        ["reserve: the node of a reserved seat is left alone", "step: the node of a reserved seat is left alone"];
    let waits = WAITS.iter().chain(&WAITS_NEVER_REACHED);
    let entries = ENTRIES.iter().chain(&ENTRIES_NEVER_REACHED).chain(&runs).chain(&fetches);
    let by_step = entered_by_step.iter().map(String::as_str);
    for name in clears.iter().chain(&RESERVES).chain(&TITLES).chain(waits).chain(entries).copied().chain(by_step) {
        assert!(tally.of(name) >= 10, "{name}");
    }
}

#[test]
fn fetch_and_free_count_are_what_the_rule_says() {
    let mut random = Random::new(3);
    for profile in PROFILES {
        let mut taken_out_first = 0;
        let mut refused = 0;
        for _ in 0..4_000 {
            let mut tables = sound_words(&mut random, profile);
            tables.nodes[TITLE] = LONGEST_TITLE;
            assert_eq!(tables.free_count(), Ok(free_nodes(&tables, None).len() as u32), "{tables:?}");
            let seat = match tables.seats.chunks(SEAT_WORDS).position(|seat| seat[PHASE] == 0) {
                Some(seat) => seat,
                None => continue,
            };
            let mut after = tables.clone();
            let answer = after.reserve(seat as u32, 3, 5, 2);
            match reserved(&tables, seat, [3, 5, 2]) {
                Some(then) => {
                    assert_eq!(answer, Ok(Answer::Node(then.seats[SEAT_WORDS * seat + OWN])));
                    assert_eq!(after, then, "{tables:?}");
                    taken_out_first += u32::from(free_nodes(&tables, Some(seat)).is_empty());
                }
                None => {
                    assert_eq!((answer, &after), (Err(8), &tables));
                    refused += 1;
                }
            }
        }
        assert!(taken_out_first > 100 && refused > 100, "{taken_out_first} {refused}");
    }
}

#[test]
fn run_is_step_after_step() {
    let mut random = Random::new(4);
    for profile in PROFILES {
        let mut damaged_on_the_way = 0;
        for _ in 0..20_000 {
            let tables = sound_words(&mut random, profile);
            let seat_count = tables.seat_count();
            let entries: Vec<u32> = (0..20).map(|_| random.below(seat_count + seat_count / 4)).collect();
            let mut by_step = tables.clone();
            let answers = entries.iter().map(|&seat| by_step.step(seat));
            let stepped: Vec<Result<Answer, u32>> = answers.take_while(|answer| answer.is_ok()).collect();
            let refused_entry = entries.get(stepped.len());
            let refusal = refused_entry.map_or(0, |&seat| by_step.step(seat).unwrap_err());
            let mut by_run = tables.clone();
            let ran = by_run.run(&entries, u32::MAX);
            assert_eq!(ran, (stepped.len() as u32, refusal), "{tables:?} {entries:?}");
            assert_eq!(by_run, by_step, "{tables:?} {entries:?}");
            damaged_on_the_way += u32::from(refusal == 1);
        }
        assert!(damaged_on_the_way > 100, "{damaged_on_the_way}");
    }
}
