//! compare_library SEED ROUNDS: calls the second machine and another one on the same tables, scripts and lists and compares
//! every word, of both profiles. The other is the proved library (feature `proved`), another crate of this shape (feature
//! `other`), or the same machine. At the first difference it prints the smallest tables, the shortest script or the shortest
//! lists found that show it. The last line is 'N passed, M failed'.

use second::driver::{Difference, Driver, Library};
use second::machine::Profile::{Ordinary, Sheet};
use second::random::Random;
use second::shrink::smallest_text;
use second::tables::{any_words, full_lists, many_holders, many_reserved, many_waiters, many_walkers, sound_words};
use std::process::exit;

#[cfg(feature = "proved")]
fn other_machine() -> Library {
    second::library_of!(second::proved)
}

#[cfg(feature = "other")]
fn other_machine() -> Library {
    second::library_of!(other::library)
}

#[cfg(not(any(feature = "proved", feature = "other")))]
fn other_machine() -> Library {
    second::library_of!(second::library)
}

type Family = (&'static str, u32, Numbers, fn(&mut Driver, &mut Random) -> Result<(), Difference>);

/// Lists and sheets have numbers of their own, so that the tables and scripts of a seed are what they were before there were
/// any.
#[derive(Clone, Copy)]
enum Numbers {
    First,
    OfLists,
    OfSheets,
}

use Numbers::{First, OfLists, OfSheets};

/// What one round compares, and how often.
const FAMILIES: [Family; 20] = [
    ("histories from fresh tables", 2, First, |driver, random| driver.history(random, &[Ordinary])),
    ("any words", 200, First, |driver, random| driver.family(random, any_words, Ordinary)),
    ("sound words", 400, First, |driver, random| driver.family(random, sound_words, Ordinary)),
    ("many holders", 100, First, |driver, random| driver.family(random, many_holders, Ordinary)),
    ("many waiters", 100, First, |driver, random| driver.family(random, many_waiters, Ordinary)),
    ("many reserved", 100, First, |driver, random| driver.family(random, many_reserved, Ordinary)),
    ("each clause of sound shape broken", 2, First, |driver, random| driver.damages(random, Ordinary)),
    ("scripts read and played", 1, First, Driver::scripts),
    ("lists of locks and of claims", 400, OfLists, Driver::lists),
    ("sheets: histories from fresh ones", 2, OfSheets, |driver, random| driver.history(random, &[Sheet])),
    ("sheets: any words", 100, OfSheets, |driver, random| driver.family(random, any_words, Sheet)),
    ("sheets: sound words", 200, OfSheets, |driver, random| driver.family(random, sound_words, Sheet)),
    ("sheets: many holders", 50, OfSheets, |driver, random| driver.family(random, many_holders, Sheet)),
    ("sheets: many waiters", 50, OfSheets, |driver, random| driver.family(random, many_waiters, Sheet)),
    ("sheets: many reserved", 50, OfSheets, |driver, random| driver.family(random, many_reserved, Sheet)),
    ("sheets: many walkers", 100, OfSheets, |driver, random| driver.family(random, many_walkers, Sheet)),
    ("sheets: full lists", 50, OfSheets, |driver, random| driver.family(random, full_lists, Sheet)),
    ("sheets: each clause of sound shape broken", 2, OfSheets, |driver, random| driver.damages(random, Sheet)),
    ("sheets: tables of the other profile", 100, OfSheets, Driver::other_profile),
    ("sheets: calls of both by turns", 1, OfSheets, |driver, random| driver.history(random, &[Ordinary, Sheet])),
];

fn number(argument: Option<String>) -> u64 {
    argument.and_then(|digits| digits.parse().ok()).expect("compare_library SEED ROUNDS")
}

fn main() {
    let mut arguments = std::env::args().skip(1);
    let (seed, rounds) = (number(arguments.next()), number(arguments.next()));
    let mut driver = Driver { ours: second::library_of!(second::library), theirs: other_machine(), agreed: 0 };
    let mut numbers = [seed, !seed, !seed >> 1].map(Random::new);
    let mut passed = 0;
    for round in 1..=rounds {
        for (name, times, whose, compare) in FAMILIES {
            for _ in 0..times {
                if let Err(difference) = compare(&mut driver, &mut numbers[whose as usize]) {
                    println!("difference on {name}, after {} calls alike:", driver.agreed);
                    print!("{}", smallest_text(&driver, difference));
                    println!("{passed} passed, 1 failed");
                    exit(1);
                }
            }
            passed += 1;
        }
        if round % 10 == 0 || round == rounds {
            println!("round {round} of {rounds}: {} calls alike", driver.agreed);
        }
    }
    println!("{passed} passed, 0 failed");
}
