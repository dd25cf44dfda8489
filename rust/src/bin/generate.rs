//! generate SEED COUNT [DIRECTORY | --tally | --tables | --lists | --sheets | --sheet-tables]: writes the scripts 0 to COUNT
//! − 1 of a seed into a directory, or counts what they reach, or what COUNT rounds of tables of the seed are, or what COUNT
//! rounds of lists to import and to export meet; or, of sheets, what COUNT histories of the seed reach, or what COUNT rounds
//! of tables are. With none of these, prints the script COUNT of the seed.

use second::generate::script;
use second::machine::Profile::{self, Ordinary, Sheet};
use second::random::Random;
use second::tally::Tally;
use std::io::Write;

const USAGE: &str = "generate SEED COUNT [DIRECTORY | --tally | --tables | --lists | --sheets | --sheet-tables]";

fn number(argument: Option<&String>) -> u64 {
    argument.and_then(|digits| digits.parse().ok()).expect(USAGE)
}

/// What so many rounds of a seed are, by what counts one.
fn print_rounds(profile: Profile, seed: u64, rounds: u64, count_round: fn(&mut Tally, &mut Random)) {
    let mut tally = Tally::new(profile);
    let mut random = Random::new(seed);
    (0..rounds).for_each(|_| count_round(&mut tally, &mut random));
    print!("{}", tally.text());
}

fn main() -> std::io::Result<()> {
    let arguments: Vec<String> = std::env::args().skip(1).collect();
    let (seed, count) = (number(arguments.first()), number(arguments.get(1)));
    match arguments.get(2).map(String::as_str) {
        None => std::io::stdout().write_all(&script(seed, count).1)?,
        Some("--tally") => {
            let mut tally = Tally::new(Ordinary);
            for (flaw, bytes) in (0..count).map(|number| script(seed, number)) {
                tally.count_script(flaw, &bytes);
            }
            print!("{}", tally.text());
        }
        Some("--tables") => print_rounds(Ordinary, seed, count, Tally::count_round),
        Some("--lists") => print_rounds(Ordinary, seed, count, Tally::count_lists),
        Some("--sheets") => print_rounds(Sheet, seed, count, Tally::count_history),
        Some("--sheet-tables") => print_rounds(Sheet, seed, count, Tally::count_round),
        Some(directory) => {
            for number in 0..count {
                std::fs::write(format!("{directory}/{seed}-{number}.script"), script(seed, number).1)?;
            }
        }
    }
    Ok(())
}
