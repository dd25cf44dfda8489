//! The title has an end: 02's refusal 11 and its place among the others, clear's count, a title that does not fit, and the
//! fourth number of a script.

use crate::damages::{mistitled, MISTITLES};
use crate::driver::{every_call, outcome, Call, Case};
use crate::library::{self, CONTENTS_WORDS};
use crate::library_of;
use crate::machine::Profile::Ordinary;
use crate::machine::{Answer, MOST_SEATS, ROW_WORDS};
use crate::random::Random;
use crate::script::{play, MOST_ROWS};
use crate::tables::{any_words, many_holders, sound_words, Tables};
use crate::tests::histories::{H1, H2, H3, H4, H5, H6, H7, H8, H9, THEN_H10};
use crate::tests::layout::{place, title_is_damage, word, END, KIND, NODE_WORDS, OWN, PHASE, SEAT_WORDS, TITLE};
use crate::tests::layout::{HEAD, READERS, WORDS_BEFORE_NODES};
use crate::tests::{refused_by_every_call, script_of, script_on, LONGEST_TITLE};

const REFUSED_BEYOND: Result<Answer, u32> = Err(11);

#[test]
fn a_claim_may_end_at_the_title_and_not_beyond() {
    for title in [1, 2, 20, LONGEST_TITLE - 1] {
        let mut tables = Tables::fresh(Ordinary, 1, 1, title);
        assert_eq!(tables.reserve(0, 0, title + 1, 2), REFUSED_BEYOND);
        assert_eq!(tables.reserve(0, title, title + 1, 2), REFUSED_BEYOND);
        assert_eq!(tables.reserve(0, 0, LONGEST_TITLE, 1), REFUSED_BEYOND);
        assert_eq!(tables, Tables::fresh(Ordinary, 1, 1, title));
        assert_eq!(tables.reserve(0, title - 1, title, 2), Ok(Answer::Node(1)));
    }
    let mut tables = Tables::fresh(Ordinary, 1, 1, LONGEST_TITLE);
    assert_eq!(tables.reserve(0, 0, LONGEST_TITLE, 2), Ok(Answer::Node(1)));
}

/// Two nodes for a title of twenty frames: seat 0 holds all of it, seat 1 waits, seat 2 is idle, and no node is free.
fn full_tables() -> Tables {
    let mut tables = Tables::fresh(Ordinary, 2, 3, 20);
    assert_eq!(tables.reserve(0, 0, 20, 2), Ok(Answer::Node(1)));
    assert_eq!(tables.enter(0), Ok(Answer::On));
    assert_eq!([0, 0].map(|seat| tables.step(seat)), [Ok(Answer::On), Ok(Answer::Held)]);
    assert_eq!(tables.reserve(1, 10, 20, 2), Ok(Answer::Node(2)));
    assert_eq!(tables.enter(1), Ok(Answer::On));
    assert_eq!(tables.step(1), Ok(Answer::Wait { node: 1, first: 10, end: 20 }));
    tables
}

#[test]
fn of_two_refusals_of_reserve_the_first_in_its_order_is_given() {
    let refused = |seat, start, end, kind| {
        let mut tables = full_tables();
        let answer = tables.reserve(seat, start, end, kind);
        assert_eq!(tables, full_tables());
        answer.expect_err("no node is free")
    };
    // a seat that is not there, and each refusal behind it
    assert_eq!([refused(3, 25, 25, 2), refused(3, 10, 21, 2), refused(3, 10, 20, 9), refused(3, 10, 20, 2)], [2; 4]);
    // an empty run, beyond the title, of no known kind, of a seat that has a claim, without a node
    assert_eq!([refused(2, 25, 25, 2), refused(2, 30, 21, 2), refused(2, LONGEST_TITLE, 21, 9)], [3; 3]);
    assert_eq!([refused(0, 25, 25, 9), refused(0, 7, 7, 9), refused(0, 7, 7, 2), refused(2, 7, 7, 2)], [3; 4]);
    // beyond the title
    assert_eq!([refused(2, 10, 21, 9), refused(0, 10, 21, 2), refused(2, 10, 21, 2), refused(0, 20, 21, 0)], [11; 4]);
    // up to the title
    assert_eq!([refused(2, 10, 20, 9), refused(0, 10, 20, 0), refused(0, 19, 20, 3)], [4; 3]);
    assert_eq!([refused(0, 10, 20, 2), refused(1, 10, 20, 1)], [5; 2]);
    assert_eq!([refused(2, 10, 20, 2), refused(2, 0, 1, 1)], [8; 2]);
}

#[test]
fn damage_is_told_before_the_end_of_the_title() {
    let mut tables = full_tables();
    tables.nodes[HEAD] = 3;
    assert_eq!(tables.reserve(2, 10, 21, 2), Err(1));
    assert_eq!(tables.reserve(3, 25, 21, 9), Err(1));
}

/// Tables so long, with a seven in each word.
fn sevens(node_words: usize, seat_words: usize) -> Tables {
    Tables { profile: Ordinary, nodes: vec![7; node_words], seats: vec![7; seat_words] }
}

#[test]
fn clear_is_refused_1_for_lengths_then_3_for_no_title() {
    let (one_node, one_seat) = (WORDS_BEFORE_NODES + NODE_WORDS, SEAT_WORDS);
    for (nodes, seats, title, answer) in [
        (one_node - 1, one_seat, 0, Err(1)),
        (one_node, one_seat + 1, 0, Err(1)),
        (0, 0, 0, Err(1)),
        (one_node + 1, one_seat, 9, Err(1)),
        (one_node, one_seat, 0, Err(3)),
    ] {
        let before = sevens(nodes, seats);
        let mut tables = before.clone();
        assert_eq!(tables.clear(title), answer, "{nodes} {seats} {title}");
        assert_eq!(tables, before);
    }
    let mut tables = full_tables();
    assert_eq!(tables.clear(0), Err(3));
    assert_eq!(tables, full_tables());
}

#[test]
fn clear_remembers_its_count_and_writes_0_everywhere_else() {
    for title in [1, 19, 20, 21, LONGEST_TITLE] {
        let full = full_tables();
        let all_sevens = sevens(full.nodes.len(), full.seats.len());
        for mut tables in [full, all_sevens, Tables::fresh(Ordinary, 2, 3, 0)] {
            assert_eq!(tables.clear(title), Ok(()));
            assert_eq!(tables.nodes[TITLE], title);
            tables.nodes[TITLE] = 0;
            assert!(tables.nodes.iter().chain(&tables.seats).all(|&word| word == 0));
        }
    }
}

#[test]
fn a_new_title_is_that_of_the_next_claims() {
    let mut tables = full_tables();
    assert_eq!(tables.reserve(2, 10, 21, 2), REFUSED_BEYOND);
    tables.clear(21).unwrap();
    assert_eq!(tables.reserve(2, 10, 21, 2), Ok(Answer::Node(1)));
    tables.clear(19).unwrap();
    assert_eq!(tables.reserve(2, 10, 20, 2), REFUSED_BEYOND);
    assert_eq!(tables.reserve(2, 10, 19, 2), Ok(Answer::Node(1)));
}

#[test]
fn tables_without_a_title_are_damaged() {
    let tables = Tables::fresh(Ordinary, 4, 4, 0);
    refused_by_every_call("no title", &tables);
    let tables = Tables::fresh(Ordinary, 4, 4, 1);
    assert_eq!(tables.free_count(), Ok(4));
}

/// These are damaged while the title is below this count, and sound from there on.
fn assert_shortest_title(name: &str, tables: &Tables, shortest: u32) {
    let mut tables = tables.clone();
    for title in [0, 1, shortest - 1] {
        tables.nodes[TITLE] = title;
        refused_by_every_call(&format!("{name}, title {title}"), &tables);
    }
    for title in [shortest, shortest + 1, LONGEST_TITLE] {
        tables.nodes[TITLE] = title;
        assert!(tables.are_sound(), "{name}, title {title}");
    }
}

#[test]
fn a_title_below_the_end_of_any_node_is_damage() {
    let mut tables = Tables::fresh(Ordinary, 4, 2, 50);
    tables.reserve(0, 30, 40, 2).unwrap();
    assert_shortest_title("a reserved node", &tables, 40);
    tables.enter(0).unwrap();
    assert_shortest_title("a walker's node", &tables, 40);
    while tables.step(0).expect("the seat is under way") != Answer::Held {}
    assert_shortest_title("a held node", &tables, 40);
    tables.release(0).unwrap();
    assert_shortest_title("a released node on the list", &tables, 40);
    tables.reserve(1, 0, 10, 2).unwrap();
    tables.enter(1).unwrap();
    while tables.step(1).expect("the seat is under way") != Answer::Held {}
    tables.release(1).unwrap();
    assert_eq!((word(&tables.nodes, 1, END), tables.nodes[HEAD], tables.free_count()), (40, 2, Ok(3)));
    assert_shortest_title("a free node that keeps its claim", &tables, 40);
}

#[test]
fn the_title_is_damage_exactly_when_the_clause_says_so() {
    let mut random = Random::new(16);
    let mut found = [0, 0];
    for _ in 0..10_000 {
        let mut tables =
            if random.percent(50) { sound_words(&mut random, Ordinary) } else { many_holders(&mut random, Ordinary) };
        let node_count = ((tables.nodes.len() - WORDS_BEFORE_NODES) / NODE_WORDS) as u32;
        let end = word(&tables.nodes, random.between(1, node_count), END);
        tables.nodes[TITLE] = random.pick(&[0, 1, end.saturating_sub(1), end, end.saturating_add(1), LONGEST_TITLE]);
        let damage = title_is_damage(&tables.nodes);
        assert_eq!(tables.free_count() == Err(1), damage, "{tables:?}");
        found[usize::from(damage)] += 1;
    }
    assert!(found.iter().all(|&times| times >= 1000), "{found:?}");
}

#[test]
fn no_call_but_clear_writes_the_title() {
    let mut random = Random::new(17);
    let library = library_of!(crate::library);
    let mut accepted = [0, 0];
    for turn in 0..4_000 {
        let tables = match turn % 4 {
            0 => any_words(&mut random, Ordinary),
            1 => sound_words(&mut random, Ordinary),
            2 => many_holders(&mut random, Ordinary),
            _ => mistitled(&mut random, Ordinary, &MISTITLES[turn / 4 % MISTITLES.len()]),
        };
        for call in every_call(&mut random, &tables) {
            let case = Case { tables: tables.clone(), call };
            let after = outcome(&library, &case);
            match case.call {
                Call::Clear { title } if after.answer == 0 => {
                    assert_eq!(after.nodes.words()[TITLE], title);
                    accepted[0] += 1;
                }
                _ => {
                    assert_eq!(after.nodes.words().get(TITLE), tables.nodes.get(TITLE), "{case:?}");
                    accepted[1] += u32::from(after.nodes.words() != tables.nodes);
                }
            }
        }
    }
    assert!(accepted.iter().all(|&times| times >= 1000), "{accepted:?}");
}

#[test]
fn no_step_is_refused_11() {
    let mut random = Random::new(18);
    let mut fetched = 0;
    for _ in 0..20_000 {
        let mut tables = sound_words(&mut random, Ordinary);
        let seat = random.below(tables.seat_count());
        let words = &tables.seats[SEAT_WORDS * seat as usize..];
        let ends_at_title = words[PHASE] == 6 && word(&tables.nodes, words[OWN], END) == tables.nodes[TITLE];
        let answer = tables.step(seat);
        assert_ne!(answer, REFUSED_BEYOND);
        fetched += u32::from(ends_at_title && answer.is_ok());
    }
    assert!(fetched >= 100, "{fetched}");
}

#[test]
fn covered_is_at_most_the_title() {
    let mut random = Random::new(19);
    let mut whole = 0;
    for _ in 0..4_000 {
        let tables = many_holders(&mut random, Ordinary);
        let (_, covered) = tables.board(&mut [0; ROW_WORDS * MOST_SEATS]).expect("sound tables, and rows enough");
        assert!(covered <= u64::from(tables.nodes[TITLE]), "{tables:?}");
        whole += u32::from(covered == u64::from(tables.nodes[TITLE]));
    }
    assert!(whole >= 50, "{whole}");
}

#[test]
fn a_title_of_one_frame_is_held_by_one_writer() {
    let script = script_on(2, 2, 1, "v 0 0 2 2; v 0 1 1 2; v 0 0 1 2; e 0; s 0; s 0; v 1 0 1 1; e 1; s 1");
    let printed = "1 no 11\n2 no 3\n3 node 1\n4 on\n5 on\n6 held\n7 node 2\n8 on\n9 wait 1 0 1\n\
                   list 1\nhold 0 0 1 2\ncovered 1\n";
    assert_eq!(play(script.as_bytes()), printed);
}

/// With the shortest title that their claims have room in, so that a claim ends at it; H11's needs the longest.
#[test]
fn the_histories_are_the_same_where_the_last_claim_ends_at_the_title() {
    let h10 = format!("{}; {THEN_H10}", H9.2);
    let shortest = [(H1, 25), (H2, 30), (H3, 30), (H4, 100), (H5, 9), (H6, 10), (H7, 10), (H8, 10), (H9, 20)];
    for ((nodes, seats, bodies), title) in shortest.into_iter().chain([((H9.0, H9.1, h10.as_str()), 20)]) {
        let with = |title| play(script_on(nodes, seats, title, bodies).as_bytes());
        assert_eq!(with(title), play(script_of(nodes, seats, bodies).as_bytes()), "{bodies}");
        assert!(with(title - 1).contains("no 11") && !with(title).contains("no 11"), "{bodies}");
    }
}

#[test]
fn the_title_is_the_fourth_number_of_a_script() {
    let mut numbers = [9; CONTENTS_WORDS + 5 * MOST_ROWS];
    assert_eq!(library::read(b"4 3 1 20\nv 2 10 21 1\n", &mut numbers), 0);
    let filled = [4, 3, 1, 20, 1, 2, 10, 21, 1];
    assert_eq!((numbers.len(), &numbers[..filled.len()]), (5004, &filled[..]));
    assert!(numbers[filled.len()..].iter().all(|&number| number == 0));
    assert_eq!(library::read(b"4 3 1 0\nv 2 10 21 1\n", &mut numbers), 10 << 32 | 1);
    assert_eq!(numbers[3], 20);
}

/// Tables written by hand: seat 0 reads the whole title.
#[test]
fn a_holder_of_the_whole_title_steps_and_releases_like_any_other() {
    let mut tables = Tables::fresh(Ordinary, 1, 1, 20);
    for (field, value) in [(END, 20), (KIND, 1)] {
        tables.nodes[place(1, field)] = value;
    }
    tables.nodes[HEAD] = 1;
    tables.nodes[READERS] = 1;
    tables.seats[PHASE] = 5;
    tables.seats[OWN] = 1;
    assert_eq!(tables.step(0), Ok(Answer::Held));
    assert_eq!(tables.release(0), Ok(Answer::Out));
    assert_eq!(tables.reserve(0, 0, 20, 1), Ok(Answer::Node(1)));
}
