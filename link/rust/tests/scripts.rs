//! Scripts, good and bad, read and played.

use soodhiqune::lent::{self, PRINTED_BYTES, SCRIPT_NUMBERS};
use soodhiqune::{play, read, BadScript, Line, Script};

const GOOD: &[u8] = b"4 3 4 20\nv 0 10 20 2\ne 0\ns 0\nr 4294967295\n";

#[test]
fn a_good_script_is_read() {
    let lines = vec![
        Line::Reserve { seat: 0, start: 10, end: 20, kind: 2 },
        Line::Enter { seat: 0 },
        Line::Step { seat: 0 },
        Line::Release { seat: u32::MAX },
    ];
    assert_eq!(read(GOOD), Ok(Script { nodes: 4, seats: 3, title: 20, lines }));
    let longest = Script { nodes: 256, seats: 64, title: u32::MAX, lines: Vec::new() };
    assert_eq!(read(b"256 64 0 4294967295\n"), Ok(longest));
}

#[test]
fn what_a_script_does_not_fill_is_0() {
    let mut numbers = [9; SCRIPT_NUMBERS];
    assert_eq!(lent::read(GOOD, &mut numbers), Ok(()));
    let filled = [4, 3, 4, 20, 1, 0, 10, 20, 2, 4, 0, 0, 0, 0, 2, 0, 0, 0, 0, 3, u32::MAX];
    let (found, rest) = numbers.split_at(filled.len());
    assert_eq!(found, filled);
    assert!(rest.iter().all(|&number| number == 0));
}

#[test]
fn a_bad_script_names_its_line_and_changes_nothing() {
    let mut numbers = [9; SCRIPT_NUMBERS];
    assert_eq!(lent::read(b"4 3 1 20\ns 00\n", &mut numbers), Err(BadScript::Line(2)));
    assert_eq!(numbers, [9; SCRIPT_NUMBERS]);
    assert_eq!(read(b""), Err(BadScript::Line(1)));
    assert_eq!(read(b"4 3 1 20\nb 0 10 20 2\n"), Err(BadScript::Line(2)));
    assert_eq!(read(b"4 3 1 20\ne 0 10 20 2\n"), Err(BadScript::Line(2)));
    assert_eq!(read(b"4 3 1 20\n"), Err(BadScript::Line(2)));
    assert_eq!(read(b"4 3 0 20\n\n"), Err(BadScript::Line(2)));
    for first in [&b"4 3 0\n"[..], b"4 3 0 0\n", b"4 3 0 4294967296\n", b"4 3 0 20 1\n", b"4 3 0 \n"] {
        assert_eq!(read(first), Err(BadScript::Line(1)), "{}", first.escape_ascii());
    }
    assert_eq!(read(&[b'1'; 16384]), Err(BadScript::Line(1)));
    assert_eq!(read(&[b'1'; 16385]), Err(BadScript::TooLong));
    let error: Box<dyn std::error::Error> = read(b"4 3 1 20\ns 00\n").unwrap_err().into();
    assert_eq!(error.to_string(), "line 2 of the script is wrong");
    assert_eq!(BadScript::TooLong.to_string(), "the script is too long");
}

#[test]
fn a_script_is_played() {
    assert_eq!(play(GOOD), "1 node 1\n2 on\n3 on\n4 no 2\nlist 1\ncovered 0\n");
    assert_eq!(play(b"4 3 1 20\ns 00\n"), "bad 2\n");
    assert_eq!(play(b"4 3 2 20\nv 0 10 21 2\nv 0 10 20 2\n"), "1 no 11\n2 node 1\nlist\ncovered 0\n");
    assert_eq!(play(b"4 3 2 20\ne 0\nv 0 10 20 2\n"), "1 no 14\n2 node 1\nlist\ncovered 0\n");
    assert_eq!(
        play(b"2 2 6 9\nv 0 0 5 2\nv 1 3 9 2\ns 0\ns 0\ne 1\ns 1\n"),
        "1 node 1\n2 node 2\n3 on\n4 on\n5 on\n6 wait 1 3 5\nlist 1\ncovered 0\n"
    );
    let mut printed = [9; PRINTED_BYTES];
    assert_eq!(lent::play(b"", &mut printed), 6);
    let (found, rest) = printed.split_at(6);
    assert_eq!(found, b"bad 1\n");
    assert!(rest.iter().all(|&byte| byte == 9));
}

/// A claim waits at another, told so with numbers of ten digits as often as a script has lines: more than 32,768 bytes.
#[test]
fn all_of_a_long_output_is_there() {
    let claim = "1000000000 4294967295 2";
    let script = format!("2 2 1000 4294967295\nv 0 {claim}\ne 0\ns 0\ns 0\nv 1 {claim}\n{}", "s 1\n".repeat(995));
    let printed = play(script.as_bytes());
    assert_eq!(printed.len(), 32_804);
    assert_eq!(printed.matches(" wait 1 1000000000 4294967295\n").count(), 994);
    assert!(printed.ends_with("\nlist 1\nhold 0 1000000000 4294967295 2\ncovered 3294967295\n"));
}
