//! compare SEED COUNT FIRST LIMIT SHRINK DIRECTORY PROGRAM [ARGUMENT...]: plays the scripts 0 to COUNT − 1 of a seed on
//! the second machine and on a program that reads them from its standard input, and compares every byte that is printed,
//! and how the program ended: with status 0, or 1 on a bad script. It has FIRST seconds for the empty script, which comes
//! first, since a program may build itself when it is first run, and LIMIT seconds for each other. The first script that
//! differs is shrunk for SHRINK seconds. The scripts that differ go into the directory with both outputs; those of an
//! earlier run are removed from it. The last line is 'N passed, M failed'.

use second::generate::script;
use second::process::{self, interrupted, note_interrupts, Ending, Played, MOST_PRINTED};
use second::script::play;
use second::shrink::shrink_script;
use std::ffi::OsStr;
use std::fs::{self, File};
use std::io;
use std::process::exit;
use std::time::{Duration, Instant};

const PROGRESS: Duration = Duration::from_secs(5);
/// The differences that are shown and kept; the others are only counted.
const MOST_SHOWN: u64 = 10;
const LONGEST_SHOWN: usize = 120;
const KEPT: [&str; 3] = ["script", "second", "other"];

struct Comparison<'a> {
    seed: u64,
    count: u64,
    first: Duration,
    limit: Duration,
    shrinking: Duration,
    directory: &'a str,
    command: &'a [String],
}

fn is_bad(printed: &str) -> bool {
    printed.starts_with("bad ")
}

fn accepted(ending: Ending, bad: bool) -> bool {
    ending == Ending::Status(0) || bad && ending == Ending::Status(1)
}

fn alike(ours: &str, theirs: &Played) -> bool {
    ours.as_bytes() == theirs.printed && accepted(theirs.ending, is_bad(ours))
}

/// A line of an output as it can be shown, or that there is none.
fn shown(line: Option<&[u8]>) -> String {
    line.map_or("(nothing)".to_string(), |line| {
        let cut = if line.len() > LONGEST_SHOWN { " ..." } else { "" };
        format!("\"{}\"{cut}", line[..line.len().min(LONGEST_SHOWN)].escape_ascii())
    })
}

/// The first line that differs, from 1, in both outputs; a line end is part of its line.
fn first_difference(ours: &[u8], theirs: &[u8]) -> Option<(usize, String, String)> {
    let mut ours = ours.split_inclusive(|&byte| byte == b'\n');
    let mut theirs = theirs.split_inclusive(|&byte| byte == b'\n');
    let mut number = 0;
    loop {
        number += 1;
        match (ours.next(), theirs.next()) {
            (None, None) => return None,
            (our, their) if our != their => return Some((number, shown(our), shown(their))),
            _ => {}
        }
    }
}

fn ending_text(ending: Ending) -> String {
    match ending {
        Ending::Status(status) => format!("it ended with status {status}"),
        Ending::Signal(number) => format!("it was killed by signal {number}"),
        Ending::OutOfTime => "it took too long and was stopped".to_string(),
        Ending::TooMuch => format!("it printed more than {MOST_PRINTED} bytes and was stopped"),
        Ending::Interrupted => "it was interrupted".to_string(),
    }
}

/// A word of a command as the shell reads it.
fn quoted(word: &str) -> String {
    if !word.is_empty() && word.bytes().all(|byte| byte.is_ascii_alphanumeric() || b"/._-+=:,@%".contains(&byte)) {
        word.to_string()
    } else {
        format!("'{}'", word.replace('\'', r"'\''"))
    }
}

impl Comparison<'_> {
    fn clear(&self) -> io::Result<()> {
        fs::create_dir_all(self.directory)?;
        for entry in fs::read_dir(self.directory)? {
            let path = entry?.path();
            if path.extension().map_or(false, |extension| KEPT.iter().any(|kept| extension == OsStr::new(kept))) {
                fs::remove_file(path)?;
            }
        }
        Ok(())
    }

    /// The program on a script that is left in the file.
    fn theirs(&self, file: &str, script: &[u8], limit: Duration) -> io::Result<Played> {
        fs::write(file, script)?;
        process::play(self.command, File::open(file)?, limit)
    }

    /// The program is there, and ends as it should on the empty script: else that is said once, and nothing is compared.
    fn first_run(&self) -> Result<(), String> {
        let file = format!("{}/empty.script", self.directory);
        let played = self.theirs(&file, b"", self.first).map_err(|error| format!("it cannot be run: {error}"))?;
        fs::remove_file(file).map_err(|error| error.to_string())?;
        if accepted(played.ending, true) {
            Ok(())
        } else {
            Err(format!("on the empty script {}; status 0 or 1 is expected", ending_text(played.ending)))
        }
    }

    /// Both outputs into files beside the script, and where they differ, on the terminal.
    fn show(&self, name: &str, ours: &str, theirs: &Played) -> io::Result<()> {
        fs::write(format!("{name}.second"), ours)?;
        fs::write(format!("{name}.other"), &theirs.printed)?;
        match first_difference(ours.as_bytes(), &theirs.printed) {
            Some((line, ours, theirs)) => {
                println!("  line {line} of the second machine: {ours}");
                println!("  line {line} of the program:        {theirs}");
            }
            None => println!("  the outputs are alike"),
        }
        if !accepted(theirs.ending, is_bad(ours)) {
            println!("  {}", ending_text(theirs.ending));
        }
        let words: Vec<String> = self.command.iter().map(|word| quoted(word)).collect();
        println!("  play it again: {} < {}", words.join(" "), quoted(&format!("{name}.script")));
        println!("  what was printed: beside it, in .second and .other");
        Ok(())
    }

    /// The shortest script found that differs too, and is well formed or bad as this one is. One that takes too long is
    /// left as it is.
    fn shrink(&self, name: &str, script: &[u8], ours: &str, theirs: &Played) -> io::Result<()> {
        if theirs.ending == Ending::OutOfTime || self.shrinking.is_zero() {
            return Ok(());
        }
        println!("  shrinking it, for {} s at most", self.shrinking.as_secs());
        let started = Instant::now();
        let file = format!("{name}-shrunk.script");
        let differs = |shorter: &[u8]| {
            let left = self.shrinking.saturating_sub(started.elapsed());
            let ours_now = play(shorter);
            is_bad(&ours_now) == is_bad(ours)
                && !left.is_zero()
                && !interrupted()
                && self.theirs(&file, shorter, self.limit.min(left)).map_or(false, |played| {
                    !matches!(played.ending, Ending::OutOfTime | Ending::Interrupted) && !alike(&ours_now, &played)
                })
        };
        let shortest = shrink_script(script.to_vec(), differs);
        let played = self.theirs(&file, &shortest, self.limit)?;
        println!("shrunk from {} to {} bytes:", script.len(), shortest.len());
        if shortest.len() <= LONGEST_SHOWN {
            println!("  script \"{}\"", shortest.escape_ascii());
        }
        self.show(&format!("{name}-shrunk"), &play(&shortest), &played)
    }

    /// Plays and compares until the end or an interrupt; how many were alike, and how many not.
    fn compare(&self) -> io::Result<(u64, u64)> {
        let (mut passed, mut failed) = (0, 0);
        let mut told = Instant::now();
        for number in (0..self.count).take_while(|_| !interrupted()) {
            let (flaw, bytes) = script(self.seed, number);
            let name = format!("{}/{}-{number}", self.directory, self.seed);
            let file = format!("{name}.script");
            let ours = play(&bytes);
            let theirs = self.theirs(&file, &bytes, self.limit)?;
            if interrupted() {
                fs::remove_file(file)?;
                break;
            }
            if alike(&ours, &theirs) {
                passed += 1;
                fs::remove_file(file)?;
            } else {
                failed += 1;
                if failed <= MOST_SHOWN {
                    println!("difference: script {number} of seed {} ({flaw})", self.seed);
                    self.show(&name, &ours, &theirs)?;
                } else {
                    fs::remove_file(file)?;
                }
                if failed == 1 {
                    self.shrink(&name, &bytes, &ours, &theirs)?;
                }
            }
            if told.elapsed() >= PROGRESS {
                told = Instant::now();
                println!("compared {} of {} scripts, {failed} differ", number + 1, self.count);
            }
        }
        Ok((passed, failed))
    }
}

fn fail(why: &str) -> ! {
    println!("tests/compare: {why}");
    println!("0 passed, 1 failed");
    exit(1);
}

fn number(name: &str, argument: &str, least: u64) -> u64 {
    match argument.parse() {
        Ok(number) if number >= least => number,
        _ => fail(&format!("{name} is a number from {least}, not '{argument}'")),
    }
}

fn main() -> io::Result<()> {
    let arguments: Vec<String> = std::env::args().skip(1).collect();
    if arguments.len() < 7 {
        fail("compare SEED COUNT FIRST LIMIT SHRINK DIRECTORY PROGRAM [ARGUMENT...]");
    }
    let comparison = Comparison {
        seed: number("SEED", &arguments[0], 0),
        count: number("COUNT", &arguments[1], 1),
        first: Duration::from_secs(number("FIRST", &arguments[2], 1)),
        limit: Duration::from_secs(number("LIMIT", &arguments[3], 1)),
        shrinking: Duration::from_secs(number("SHRINK", &arguments[4], 0)),
        directory: &arguments[5],
        command: &arguments[6..],
    };
    comparison.clear()?;
    note_interrupts();
    match comparison.first_run() {
        Err(why) if !interrupted() => fail(&format!("{}: {why}", comparison.command[0])),
        _ => {}
    }
    let (passed, failed) = comparison.compare()?;
    if failed > MOST_SHOWN {
        println!("the other {} differences are not kept", failed - MOST_SHOWN);
    }
    if interrupted() {
        println!("interrupted after {} of {} scripts", passed + failed, comparison.count);
    }
    println!("{passed} passed, {failed} failed");
    exit(if interrupted() { 130 } else { i32::from(failed > 0) });
}
