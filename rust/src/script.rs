//! The script and its program, from documents 01 and 02 alone: reading a script, and playing it on the second machine.
//! A script is bytes of any value and any number.

use crate::machine::Profile::{self, Ordinary};
use crate::machine::{Answer, MOST_NODES, MOST_SEATS, ROW_WORDS};

/// "K from 0 to 1,000"; "at most 16,384 bytes".
pub const MOST_ROWS: usize = 1000;
pub const MOST_BYTES: usize = 16384;

pub const RESERVE: u32 = 1;
pub const STEP: u32 = 2;
pub const RELEASE: u32 = 3;
pub const ENTER: u32 = 4;

/// "N, S, K and 1,000 rows by value, each a code (b 1, s 2, r 3) and four numbers; what a script does not fill is 0." 02: the
/// title's frame count is the fourth number; `v` replaces `b` and has its code, and `e`, which is given none, has the next.
pub struct Script {
    pub nodes: u32,
    pub seats: u32,
    pub count: u32,
    pub title: u32,
    pub rows: [[u32; 5]; MOST_ROWS],
}

/// "Decimal numbers up to 4,294,967,295, no leading zeros except 0 alone."
fn number(digits: &[u8]) -> Option<u32> {
    if digits.is_empty() || digits.len() > 10 || digits.len() > 1 && digits[0] == b'0' {
        return None;
    }
    let mut value = 0;
    for digit in digits {
        if !digit.is_ascii_digit() {
            return None;
        }
        value = 10 * value + u64::from(digit - b'0');
    }
    u32::try_from(value).ok()
}

/// "Single spaces": a space more, before, between or behind the fields, makes an empty field, and that is no number.
fn numbers<const COUNT: usize>(fields: &[&[u8]]) -> Option<[u32; COUNT]> {
    let mut values = [0; COUNT];
    if fields.len() != COUNT {
        return None;
    }
    for (value, field) in values.iter_mut().zip(fields) {
        *value = number(field)?;
    }
    Some(values)
}

/// "Each line ends in LF": the fields of the first line and what follows it, or nothing if no LF is left.
fn split_line(bytes: &[u8]) -> Option<(Vec<&[u8]>, &[u8])> {
    let end = bytes.iter().position(|&byte| byte == b'\n')?;
    Some((bytes[..end].split(|&byte| byte == b' ').collect(), &bytes[end + 1..]))
}

/// "Line 1 is the contents: N S K, N and S within their bounds, K from 0 to 1,000." 02: "the script's first line gets [the
/// title's frame count] as a fourth number", "1 to 4,294,967,295".
fn contents(fields: &[&[u8]]) -> Option<Script> {
    let [nodes, seats, count, title] = numbers(fields)?;
    let within = |value: u32, least: usize, most: usize| (least..=most).contains(&(value as usize));
    let tables_fit = within(nodes, 1, MOST_NODES) && within(seats, 1, MOST_SEATS) && title != 0;
    let fits = tables_fit && within(count, 0, MOST_ROWS);
    fits.then_some(Script { nodes, seats, count, title, rows: [[0; 5]; MOST_ROWS] })
}

/// "`s seat`, `r seat`." 02: "Script lines `v`, fields as in `b`, and `e seat` replace `b`", which had "seat start end kind".
fn body(fields: &[&[u8]]) -> Option<[u32; 5]> {
    match fields[0] {
        b"v" => numbers(&fields[1..]).map(|[seat, start, end, kind]| [RESERVE, seat, start, end, kind]),
        b"e" => numbers(&fields[1..]).map(|[seat]| [ENTER, seat, 0, 0, 0]),
        b"s" => numbers(&fields[1..]).map(|[seat]| [STEP, seat, 0, 0, 0]),
        b"r" => numbers(&fields[1..]).map(|[seat]| [RELEASE, seat, 0, 0, 0]),
        _ => None,
    }
}

/// Refusal 10 with its line: "L the first wrong line from 1 (a missing line has the number it would have, an extra one
/// K + 2), or 0 if too long, which is looked at first".
pub fn read_script(bytes: &[u8]) -> Result<Script, u32> {
    if bytes.len() > MOST_BYTES {
        return Err(0);
    }
    let (fields, mut rest) = split_line(bytes).ok_or(1_u32)?;
    let mut script = contents(&fields).ok_or(1_u32)?;
    for (line, row) in (2..script.count + 2).zip(&mut script.rows) {
        let (fields, after) = split_line(rest).ok_or(line)?;
        *row = body(&fields).ok_or(line)?;
        rest = after;
    }
    if rest.is_empty() {
        Ok(script)
    } else {
        Err(script.count + 2)
    }
}

/// The call that a body asks for, of the ordinary profile where a script is played.
pub fn call(profile: Profile, nodes: &mut [u32], seats: &mut [u32], row: [u32; 5]) -> Result<Answer, u32> {
    match row {
        [RESERVE, seat, start, end, kind] => profile.reserve(nodes, seats, seat, start, end, kind),
        [ENTER, seat, ..] => profile.enter(nodes, seats, seat),
        [STEP, seat, ..] => profile.step(nodes, seats, seat),
        [_, seat, ..] => profile.release(nodes, seats, seat),
    }
}

/// An answer as it is printed: "`no k` if refused". 02: "in the printed line (`wait 4 15 20`)".
pub fn answer_text(answer: Result<Answer, u32>) -> String {
    match answer {
        Ok(Answer::Node(node)) => format!("node {node}"),
        Ok(Answer::Out) => "out".to_string(),
        Ok(Answer::On) => "on".to_string(),
        Ok(Answer::Wait { node, first, end }) => format!("wait {node} {first} {end}"),
        Ok(Answer::Held) => "held".to_string(),
        Ok(Answer::Back) => "back".to_string(),
        Err(refusal) => format!("no {refusal}"),
    }
}

/// "Each call prints its number and its answer (the rest still run); then `list` and the listed node numbers; then `hold
/// seat start end kind` per row; then `covered n`." Or "a bad script prints `bad L`".
pub fn play(bytes: &[u8]) -> String {
    let script = match read_script(bytes) {
        Ok(script) => script,
        Err(line) => return format!("bad {line}\n"),
    };
    let (mut nodes, mut seats) = Ordinary.fresh(script.nodes, script.seats, script.title);
    let mut lines = Vec::new();
    for (number, &row) in (1..=script.count).zip(&script.rows) {
        lines.push(format!("{number} {}", answer_text(call(Ordinary, &mut nodes, &mut seats, row))));
    }
    let names: Vec<String> = Ordinary.listed(&nodes).map(|node| format!(" {node}")).collect();
    lines.push(format!("list{}", names.concat()));
    let mut rows = vec![0; ROW_WORDS * MOST_SEATS];
    let (count, covered) = Ordinary.board(&nodes, &seats, &mut rows).expect("as many rows as seats, in tables reached");
    for row in rows.chunks_exact(ROW_WORDS).take(count as usize) {
        lines.push(format!("hold {} {} {} {}", row[0], row[1], row[2], row[3]));
    }
    lines.push(format!("covered {covered}\n"));
    lines.join("\n")
}
