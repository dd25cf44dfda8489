//! Scripts for comparing machines: good ones that lead many seats into each other's way, and bad ones made from these.
//! A number gives the same script everywhere. The generator looks at the seats of the second machine as it goes. A sheet has no
//! script; the rows of one are calls there too.

use crate::machine::Profile::{self, Ordinary, Sheet};
use crate::machine::{HOLDING, IDLE, PHASE, READER_WAITING, RESERVED, WAITING_TO_ENTER, WITHDRAWN};
use crate::random::Random;
use crate::script::{ENTER, MOST_BYTES, MOST_ROWS, RELEASE, RESERVE, STEP};
use crate::tables::Tables;

/// What a good script is made of: tables, who takes part, and how often something is done, in per cent.
struct Mix {
    nodes: u32,
    seats: u32,
    title: u32,
    /// the seats that take part
    active: u32,
    /// claims lie within this many frames from the first one
    first: u32,
    frames: u32,
    /// no writer is longer, and no reader but the long ones
    longest: u32,
    reads: u32,
    /// readers as long as may be: they reach over other readers to writers that they did not meet on their way
    long_reads: u32,
    /// claims come with falling starts
    falling: bool,
    releases: u32,
    /// a reserved seat enters by a step of its own
    steps_in: u32,
    /// the same seat again
    stays: u32,
    nonsense: u32,
    rows: usize,
}

/// N and S.
const TABLES: [(u32, u32); 18] = [
    (1, 1),
    (1, 3),
    (2, 2),
    (2, 4),
    (3, 3),
    (4, 4),
    (4, 8),
    (5, 3),
    (6, 5),
    (8, 4),
    (8, 8),
    (12, 8),
    (16, 8),
    (40, 16),
    (63, 64),
    (65, 64),
    (256, 64),
    (256, 64),
];

/// Long readers, short readers and short writers on enough nodes: what leads to withdrawals and to readers that wait.
fn race(random: &mut Random) -> Mix {
    let (nodes, seats) = random.pick(&[(8, 6), (10, 8), (12, 6), (16, 8), (40, 16)]);
    let first = random.pick(&[0, u32::MAX - 60]);
    let frames = random.pick(&[12, 24, 40, 60]);
    Mix {
        nodes,
        seats,
        title: random.pick(&[first + frames, u32::MAX]),
        active: seats,
        first,
        frames,
        longest: random.pick(&[1, 2, 4]),
        reads: random.pick(&[50, 65, 80]),
        long_reads: random.pick(&[25, 50]),
        falling: false,
        releases: random.pick(&[20, 40, 70]),
        steps_in: random.pick(&[0, 30]),
        stays: random.pick(&[0, 20]),
        nonsense: random.pick(&[0, 2]),
        rows: MOST_ROWS,
    }
}

/// Many holders at once, on a list that grows long: claims come with falling starts, so that each is listed at once.
fn crowd(random: &mut Random) -> Mix {
    let frames = random.pick(&[5000, u32::MAX]);
    Mix {
        nodes: random.pick(&[63, 64, 65, 256]),
        seats: 64,
        title: u32::MAX,
        active: 64,
        first: u32::MAX - frames,
        frames,
        longest: random.pick(&[1, 3, 50]),
        reads: random.pick(&[0, 50, 100]),
        long_reads: random.pick(&[0, 5]),
        falling: true,
        releases: random.pick(&[3, 20]),
        steps_in: random.pick(&[0, 30]),
        stays: random.pick(&[50, 90]),
        nonsense: random.pick(&[0, 2]),
        rows: MOST_ROWS,
    }
}

/// On a sheet nobody reads; now and then somebody would, and is refused.
fn mix(random: &mut Random, profiles: &[Profile]) -> Mix {
    let mix = some_mix(random);
    if profiles.contains(&Sheet) {
        Mix { reads: random.pick(&[0, 0, 4]), ..mix }
    } else {
        mix
    }
}

fn some_mix(random: &mut Random) -> Mix {
    match random.below(10) {
        0..=3 => return race(random),
        4 => return crowd(random),
        _ => {}
    }
    let (nodes, seats) = random.pick(&TABLES);
    let frames = random.pick(&[1, 1, 1, 2, 4, 10, 20, 40, 200, u32::MAX]);
    let first = random.pick(&[0, 0, (u32::MAX - frames).min(7), u32::MAX - frames]);
    Mix {
        nodes,
        seats,
        // where the claims may end, further, or short of it, so that some claims are beyond
        title: random.pick(&[first + frames, first + frames, u32::MAX, first + frames - frames / 4]),
        active: random.pick(&[seats, seats.min(4), seats.min(8)]),
        first,
        frames,
        longest: random.pick(&[1, 3, frames / 8 + 1]).min(frames),
        reads: random.pick(&[0, 30, 50, 70, 100]),
        long_reads: random.pick(&[0, 20, 60]),
        falling: false,
        releases: random.pick(&[5, 30, 60, 100]),
        steps_in: random.pick(&[0, 30, 100]),
        stays: random.pick(&[0, 0, 30, 80]),
        nonsense: random.pick(&[0, 0, 3, 20]),
        rows: random.pick(&[0, 1, 5, 40, 150, 400, MOST_ROWS, MOST_ROWS, MOST_ROWS]),
    }
}

fn reserve_row(random: &mut Random, mix: &Mix, seat: u32, row_number: u32) -> [u32; 5] {
    let kind = if random.percent(mix.reads) { 1 } else { 2 };
    let long = kind == 1 && random.percent(mix.long_reads);
    let length = random.between(1, if long { mix.frames } else { mix.longest });
    let room = mix.frames - length;
    let start = if mix.falling {
        mix.first + room - (u64::from(room) * u64::from(row_number) / MOST_ROWS as u64) as u32
    } else {
        mix.first + random.between(0, room)
    };
    [RESERVE, seat, start, start + length, kind]
}

/// A start and an end about where a title ends: at it, before it or behind it, in any order.
pub fn around(random: &mut Random, title: u32) -> [u32; 2] {
    let near = [title.saturating_sub(1), title, title, title.saturating_add(1), title.saturating_add(1)];
    let start = random.pick(&[0, near[0], near[1], near[3], u32::MAX]);
    [start, random.pick(&near)]
}

/// A call that is well formed, and most likely refused.
fn nonsense_row(random: &mut Random, mix: &Mix) -> [u32; 5] {
    let seat = if random.percent(60) { random.below(mix.seats) } else { random.pick(&[mix.seats, 64, u32::MAX]) };
    let any_kind = random.pick(&[0, 1, 2, 3, u32::MAX]);
    match random.below(8) {
        0 => [STEP, seat, 0, 0, 0],
        1 => [RELEASE, seat, 0, 0, 0],
        2..=3 => [ENTER, seat, 0, 0, 0],
        4 => [RESERVE, seat, random.edge(), random.edge(), any_kind],
        5 => [RESERVE, seat, random.below(9), random.below(9), random.below(4)],
        _ => {
            let [start, end] = around(random, mix.title);
            [RESERVE, seat, start, end, any_kind]
        }
    }
}

/// What the seat can do next: reserve if it is idle, enter if it has reserved, now and then release if it holds, else a step.
/// In the phases that are rarest it now and then enters too, which is refused.
fn sensible_row(random: &mut Random, mix: &Mix, phase: u32, seat: u32, row_number: u32) -> [u32; 5] {
    match phase {
        IDLE => reserve_row(random, mix, seat, row_number),
        RESERVED if !random.percent(mix.steps_in) => [ENTER, seat, 0, 0, 0],
        READER_WAITING | WITHDRAWN if random.percent(8) => [ENTER, seat, 0, 0, 0],
        HOLDING if random.percent(mix.releases) => [RELEASE, seat, 0, 0, 0],
        _ => [STEP, seat, 0, 0, 0],
    }
}

/// Whether a seat waits or holds, most of the time: such steps are rarely worth a row.
fn stands(random: &mut Random, phase: u32) -> bool {
    [WAITING_TO_ENTER, READER_WAITING, HOLDING].contains(&phase) && random.percent(80)
}

pub fn row_text(row: [u32; 5]) -> String {
    let [code, seat, start, end, kind] = row;
    match code {
        RESERVE => format!("v {seat} {start} {end} {kind}\n"),
        STEP => format!("s {seat}\n"),
        ENTER => format!("e {seat}\n"),
        _ => format!("r {seat}\n"),
    }
}

/// The whole script, with its contents line.
fn script_text(nodes: u32, seats: u32, title: u32, rows: &[String]) -> Vec<u8> {
    format!("{nodes} {seats} {} {title}\n{}", rows.len(), rows.concat()).into_bytes()
}

/// The longest contents line there is.
const CONTENTS_BYTES: usize = "256 64 1000 4294967295\n".len();

/// The rows of a good script, each with the profile whose call it is.
pub struct Rows {
    pub nodes: u32,
    pub seats: u32,
    pub title: u32,
    pub rows: Vec<(Profile, [u32; 5])>,
}

/// Rows of one profile, or of several that take turns on the same tables.
pub fn some_rows(random: &mut Random, profiles: &[Profile]) -> Rows {
    let mix = mix(random, profiles);
    let mut tables = Tables::fresh(profiles[0], mix.nodes, mix.seats, mix.title);
    let mut rows = Vec::new();
    let mut bytes = CONTENTS_BYTES;
    let mut seat = 0;
    while rows.len() < mix.rows {
        let phase = |seat| tables.seat(seat).expect("it takes part")[PHASE];
        if !random.percent(mix.stays) || stands(random, phase(seat)) {
            seat = random.below(mix.active);
        }
        if stands(random, phase(seat)) {
            continue;
        }
        let row = if random.percent(mix.nonsense) {
            nonsense_row(random, &mix)
        } else {
            sensible_row(random, &mix, phase(seat), seat, rows.len() as u32)
        };
        bytes += row_text(row).len();
        if bytes > MOST_BYTES {
            break;
        }
        let profile = if profiles.len() > 1 { random.pick(profiles) } else { profiles[0] };
        // refused or not, the rows go on
        tables.profile = profile;
        let _ = tables.call(row);
        rows.push((profile, row));
    }
    Rows { nodes: mix.nodes, seats: mix.seats, title: mix.title, rows }
}

/// A good script.
pub fn good(random: &mut Random) -> Vec<u8> {
    let Rows { nodes, seats, title, rows } = some_rows(random, &[Ordinary]);
    let texts: Vec<String> = rows.into_iter().map(|(_, row)| row_text(row)).collect();
    script_text(nodes, seats, title, &texts)
}

/// A script of this many bytes, about 16,384, with nothing wrong in it but perhaps its length.
pub fn of_length(random: &mut Random, bytes: usize) -> Vec<u8> {
    // a title of ten digits, so that the length of the first line is known
    let title = random.between(1_000_000_000, u32::MAX);
    let mut left = bytes - "3 2 999 4294967295\n".len();
    let mut rows = Vec::new();
    while left > 0 {
        let text = if left > 60 {
            row_text([RESERVE, random.below(2), random.word(), random.word(), random.between(1, 2)])
        } else {
            // at most 13 bytes in one row, and never a rest too short for a row
            let length = if left <= 13 { left } else { random.between(4, 13.min(left as u32 - 4)) as usize };
            format!("{} {}\n", random.pick(&["s", "e"]), &"4294967295"[..length - "s \n".len()])
        };
        left -= text.len();
        rows.push(text);
    }
    script_text(3, 2, title, &rows)
}

/// A script that prints as much as may be, or little less: a claim holds, another waits at it, and most rows step that one.
/// Frames have ten digits; some seats reserve before the two and never enter, so that the node waited at has two.
pub fn of_waits(random: &mut Random) -> Vec<u8> {
    let first = random.between(1_000_000_000, u32::MAX - 40);
    let mut claim = |kind| [first + random.below(20), first + random.between(21, 40), kind];
    let claims = [claim(1), claim(2)];
    let before = random.pick(&[0, 9, 20]);
    let title = random.pick(&[first + 40, u32::MAX]);
    let reserve = |seat, [start, end, kind]: [u32; 3]| [RESERVE, seat, start, end, kind];
    let enter = |seat| [ENTER, seat, 0, 0, 0];
    let step = |seat| [STEP, seat, 0, 0, 0];
    let mut rows: Vec<[u32; 5]> = (0..before).map(|seat| reserve(seat, claims[1])).collect();
    let (holder, waiter) = (before, before + 1);
    rows.extend([reserve(holder, claims[0]), enter(holder), step(holder), step(holder)]);
    rows.extend([reserve(waiter, claims[1]), enter(waiter)]);
    rows.resize(MOST_ROWS, step(waiter));
    let texts: Vec<String> = rows.into_iter().map(row_text).collect();
    script_text(before + 2, before + 2, title, &texts)
}

/// Some place of the script where the byte before it (LF before the first) and the byte there are as wanted, or any place.
fn place(random: &mut Random, script: &[u8], wanted: fn(u8, u8) -> bool) -> usize {
    let before = |at: usize| if at == 0 { b'\n' } else { script[at - 1] };
    let places: Vec<usize> = (0..script.len()).filter(|&at| wanted(before(at), script[at])).collect();
    if places.is_empty() {
        random.below(script.len() as u32) as usize
    } else {
        random.pick(&places)
    }
}

fn space(_: u8, byte: u8) -> bool {
    byte == b' '
}

fn line_end(_: u8, byte: u8) -> bool {
    byte == b'\n'
}

fn line_start(before: u8, _: u8) -> bool {
    before == b'\n'
}

fn letter(_: u8, byte: u8) -> bool {
    byte.is_ascii_alphabetic()
}

fn number(before: u8, byte: u8) -> bool {
    byte.is_ascii_digit() && !before.is_ascii_digit()
}

fn any_byte(_: u8, _: u8) -> bool {
    true
}

/// Puts bytes in at such a place, or in the stead of the one there.
fn put_in(random: &mut Random, script: &mut Vec<u8>, wanted: fn(u8, u8) -> bool, bytes: &[u8]) {
    let at = place(random, script, wanted);
    script.splice(at..at, bytes.iter().copied());
}

fn put_for(random: &mut Random, script: &mut Vec<u8>, wanted: fn(u8, u8) -> bool, bytes: &[u8]) {
    let at = place(random, script, wanted);
    script.splice(at..=at, bytes.iter().copied());
}

/// The fields of the contents line (N, S, K and T) become others.
fn put_contents(script: &mut Vec<u8>, change: impl Fn(&mut Vec<String>)) {
    let length = script.iter().position(|&byte| byte == b'\n').expect("a good script has a first line");
    let line = String::from_utf8(script[..length].to_vec()).expect("a good script is ASCII");
    let mut fields: Vec<String> = line.split(' ').map(str::to_string).collect();
    change(&mut fields);
    script.splice(..length, fields.join(" ").into_bytes());
}

/// The number in one of these fields becomes another.
fn put_number(script: &mut Vec<u8>, field: usize, change: fn(u32) -> u32) {
    put_contents(script, |fields| {
        fields[field] = change(fields[field].parse().expect("it has numbers there")).to_string();
    });
}

type Flaw = (&'static str, fn(&mut Random, &mut Vec<u8>));

/// What can be wrong with a script, each put into a good one. Some leave it good by chance.
pub const FLAWS: &[Flaw] = &[
    ("a byte too long", |random, script| *script = of_length(random, MOST_BYTES + 1)),
    ("far too long", |random, script| *script = of_length(random, MOST_BYTES + 3000)),
    ("too long, and wrong from the first line on", |_, script| *script = vec![b' '; MOST_BYTES + 1]),
    ("empty", |_, script| script.clear()),
    ("a line end alone", |_, script| *script = b"\n".to_vec()),
    ("cut off before the last line end", |_, script| script.truncate(script.len() - 1)),
    ("another byte for the last line end", |random, script| {
        script.pop();
        script.push(random.pick(b" 0s\r\0"));
    }),
    ("cut off anywhere", |random, script| script.truncate(random.below(script.len() as u32) as usize)),
    ("an empty line", |random, script| put_in(random, script, line_start, b"\n")),
    ("a line end more", |_, script| script.push(b'\n')),
    ("a byte after the end", |random, script| script.push(random.word() as u8)),
    ("a line after the end", |_, script| script.extend(b"s 0\n")),
    ("CR before a line end", |random, script| put_in(random, script, line_end, b"\r")),
    ("CR for a line end", |random, script| put_for(random, script, line_end, b"\r")),
    ("a tab for a space", |random, script| put_for(random, script, space, b"\t")),
    ("two spaces for one", |random, script| put_for(random, script, space, b"  ")),
    ("no space", |random, script| put_for(random, script, space, b"")),
    ("a space before a line end", |random, script| put_in(random, script, line_end, b" ")),
    ("a space at the start of a line", |random, script| put_in(random, script, line_start, b" ")),
    ("a leading zero", |random, script| put_in(random, script, number, b"0")),
    ("a sign", |random, script| put_in(random, script, number, b"+")),
    ("a number one too large", |random, script| put_for(random, script, number, b"4294967296")),
    ("a number past 64 bits", |random, script| put_in(random, script, number, b"18446744073709551616")),
    ("a field more", |random, script| put_in(random, script, line_end, b" 1")),
    ("a letter alone", |random, script| put_in(random, script, line_start, b"s\n")),
    ("an unknown letter", |random, script| put_for(random, script, letter, b"x")),
    ("a b for a v", |random, script| put_for(random, script, |_, byte| byte == b'v', b"b")),
    ("a v for another letter", |random, script| put_for(random, script, |_, byte| b"esr".contains(&byte), b"v")),
    ("an e for a v", |random, script| put_for(random, script, |_, byte| byte == b'v', b"e")),
    ("a capital letter", |random, script| put_for(random, script, letter, b"S")),
    ("a letter twice", |random, script| put_for(random, script, letter, b"ss")),
    ("K one too large", |_, script| put_number(script, 2, |count| count + 1)),
    ("K one too small", |_, script| put_number(script, 2, |count| count.saturating_sub(1))),
    ("K out of bounds", |_, script| put_number(script, 2, |_| 1001)),
    ("N 0", |_, script| put_number(script, 0, |_| 0)),
    ("N out of bounds", |_, script| put_number(script, 0, |_| 257)),
    ("S 0", |_, script| put_number(script, 1, |_| 0)),
    ("S out of bounds", |_, script| put_number(script, 1, |_| 65)),
    ("title 0", |_, script| put_number(script, 3, |_| 0)),
    ("no title", |_, script| put_contents(script, |fields| fields.truncate(3))),
    ("title one too large", |_, script| put_contents(script, |fields| fields[3] = "4294967296".to_string())),
    ("title with a leading zero", |_, script| put_contents(script, |fields| fields[3].insert(0, '0'))),
    ("a number behind the title", |_, script| put_contents(script, |fields| fields.push("1".to_string()))),
    ("title before K", |_, script| put_contents(script, |fields| fields.swap(2, 3))),
    ("NUL", |random, script| put_for(random, script, any_byte, b"\0")),
    ("a byte above 127", |random, script| {
        let byte = 128 | random.word() as u8;
        put_for(random, script, any_byte, &[byte])
    }),
    ("any bytes", |random, script| {
        for _ in 0..random.between(1, 4) {
            let byte = random.word() as u8;
            put_for(random, script, any_byte, &[byte]);
        }
    }),
];

/// One byte becomes another, goes, or comes in.
pub fn put_change(random: &mut Random, script: &mut Vec<u8>) {
    let byte = if random.percent(50) { random.word() as u8 } else { random.pick(b"0123456789 bvesr\n") };
    match random.below(3) {
        0 => put_for(random, script, any_byte, &[byte]),
        1 => put_for(random, script, any_byte, b""),
        _ => put_in(random, script, any_byte, &[byte]),
    }
}

/// Lines and parts of lines, good ones and others.
const PIECES: &str = "s 0\n|r 1\n|e 0\n|v 0 1 2 2\n|v 0 4294967295 0 9\n|V 0 1 2 2\n|E 0\n|v |s |e |b | |\n|\r\n|\t|\
     0|1|01|64|65|256|257|1001|4294967295|4294967296";

/// Any bytes, or pieces of scripts in any order; half of them behind a first line for as many. Some are good.
pub fn any_text(random: &mut Random) -> Vec<u8> {
    let count = random.pick(&[0, 1, 2, 3, 5, 9, 200, 5000]);
    let mut text = Vec::new();
    if random.percent(50) {
        let (nodes, seats, title) = (random.between(1, 256), random.between(1, 64), random.edge());
        text.extend(format!("{nodes} {seats} {count} {title}\n").bytes());
    }
    let pieces: Vec<&str> = PIECES.split('|').collect();
    let any_bytes = random.percent(20);
    for _ in 0..count {
        if any_bytes {
            text.push(random.word() as u8);
        } else {
            text.extend(random.pick(&pieces).bytes());
        }
    }
    text
}

/// A script by seed and number, and what is wrong with it: of ten, six are good, one is as long as a script may be or prints as
/// much as one may, by turns, three have a flaw, and the flaws take turns.
pub fn script(seed: u64, number: u64) -> (&'static str, Vec<u8>) {
    let mut random = Random::new(Random::new(seed).bits().wrapping_add(number));
    match number % 10 {
        0..=5 => ("good", good(&mut random)),
        6 if number / 10 % 2 == 0 => ("as long as may be", of_length(&mut random, MOST_BYTES)),
        6 => ("printing as much as may be", of_waits(&mut random)),
        turn => {
            let (flaw, put_flaw) = FLAWS[(number / 10 * 3 + turn - 7) as usize % FLAWS.len()];
            let mut script = good(&mut random);
            put_flaw(&mut random, &mut script);
            (flaw, script)
        }
    }
}
