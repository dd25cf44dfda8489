//! Each bad line by itself, and what the generated scripts reach.

use crate::generate::{any_text, good, put_change, script, FLAWS};
use crate::machine::Profile::Ordinary;
use crate::random::Random;
use crate::script::read_script;
use crate::tally::Tally;
use crate::tests::{BOARDS, ENTRIES, ENTRIES_NEVER_REACHED, RESERVES, TITLES, WAITS, WAITS_NEVER_REACHED};

#[test]
fn bad_scripts_name_the_first_wrong_line() {
    let line = |script: &[u8]| read_script(script).err();
    assert_eq!(line(b""), Some(1));
    assert_eq!(line(b"1 1 0 9"), Some(1));
    assert_eq!(line(b"1 1 0 9\n"), None);
    assert_eq!(line(b"1 1 0 9\n\n"), Some(2));
    assert_eq!(line(b"1 1 0 9\nx"), Some(2));
    assert_eq!(line(b"256 64 0 4294967295\n"), None);
    for contents in
        ["0 1 0 9", "257 1 0 9", "1 0 0 9", "1 65 0 9", "1 1 1001 9", "01 1 0 9", "1  1 0 9", " 1 1 0 9", ""]
    {
        assert_eq!(line(format!("{contents}\n").as_bytes()), Some(1), "{contents}");
    }
    for contents in ["1 1", "1 1 0", "1 1 0 9 ", "1\t1 0 9", "1 1 0 9\r", "+1 1 0 9", "-1 1 0 9", "4294967297 1 0 9"] {
        assert_eq!(line(format!("{contents}\n").as_bytes()), Some(1), "{contents}");
    }
    for title in ["0", "", "00", "09", "+9", "-1", "9 9", "9\0", "\u{e9}", "4294967296", "42949672950"] {
        assert_eq!(line(format!("1 1 0 {title}\n").as_bytes()), Some(1), "{title}");
    }
    assert_eq!(line(b"1 1 1 1\nv 4294967295 0 4294967295 9\n"), None);
    for body in [
        "",
        "s",
        "s ",
        "s 00",
        "s 4294967296",
        "s 99999999999",
        "S 0",
        "x 0",
        "v 0 1 2",
        "v 0 1 2 2 0",
        "v 0",
        "v",
        "V 0 1 2 2",
        "vv 0 1 2 2",
        "b 0 1 2 2",
        "b 0",
        "e",
        "e ",
        "e 00",
        "e 0 1 2 2",
        "E 0",
        "ee 0",
        "r 0 0",
        "ss 0",
    ] {
        assert_eq!(line(format!("1 1 2 9\ns 0\n{body}\n").as_bytes()), Some(3), "{body}");
    }
    assert_eq!(line(b"1 1 2 9\ns 0\n"), Some(3));
    assert_eq!(line(b"1 1 2 9\ns 0\ns 0"), Some(3));
    assert_eq!(line(b"1 1 2 9\nx\ns 0"), Some(2));
    assert_eq!(line(b"1 1 1 9\ns 0\ns 0\n"), Some(3));
    assert_eq!(line(&[b'1'; 16385]), Some(0));
    assert_eq!(line(&[b'1'; 16384]), Some(1));
}

#[test]
fn the_generated_scripts_reach_every_rule() {
    let mut tally = Tally::new(Ordinary);
    for (flaw, bytes) in (0..500).map(|number| script(1, number)) {
        tally.count_script(flaw, &bytes);
    }
    let steps = [
        "step: begins to wait in phase 2",
        "step: waits on in phase 2",
        "step: wait in phase 2 is over",
        "step: reader begins to wait in phase 4",
        "step: reader waits on in phase 4",
        "step: reader's wait in phase 4 is over",
        "step: insert that links",
        "step: insert that finds another link",
        "step: restart behind a marked prev",
        "step: pass while walking",
        "step: pass while validating",
        "step: unlink while walking",
        "step: unlink while validating",
        "step: hold of a reader",
        "step: hold of a writer",
        "step: of a holder",
        "step: withdrawal",
        "step: fetch after withdrawal, the same node",
        "step: fetch after withdrawal, another node",
        "step: enters in phase 7",
        "step: the node of a reserved seat is left alone",
        "reserve",
        "enter",
        "fetch that takes marked nodes out",
        "a list longer than 30",
        "release of a reader",
        "release of a writer",
    ];
    let of_reserve = [2, 3, 11, 4, 5, 8].map(|number| format!("{number} of reserve"));
    let of_others =
        ["2 of enter", "14 of enter", "2 of step", "6 of step", "8 of step", "2 of release", "7 of release"];
    for name in steps.iter().chain(&BOARDS).chain(&RESERVES).chain(&ENTRIES).chain(&WAITS) {
        assert!(tally.of(name) >= 10, "{name}");
    }
    for name in TITLES {
        assert!(tally.of(name) >= 5, "{name}");
    }
    for refusal in of_reserve.iter().map(String::as_str).chain(of_others) {
        assert!(tally.of(&format!("refusal {refusal}")) >= 10, "{refusal}");
    }
    for name in ["the most readers holding at once", "the most writers holding at once"] {
        assert!(tally.most(name) >= 30, "{name}");
    }
    for (flaw, _) in FLAWS {
        assert!(tally.of(&format!("script: {flaw}")) >= 2, "{flaw}");
    }
    let refusals_never_met = ["11 of step", "14 of step", "6 of enter", "7 of enter", "8 of enter"];
    for refusal in refusals_never_met {
        assert_eq!(tally.of(&format!("refusal {refusal}")), 0, "{refusal}");
    }
    for name in WAITS_NEVER_REACHED.iter().chain(&ENTRIES_NEVER_REACHED) {
        assert_eq!(tally.of(name), 0, "{name}");
    }
    for line in ["bad 0", "bad 1", "bad 2", "bad, a later line"] {
        assert!(tally.of(line) >= 3, "{line}");
    }
}

#[test]
fn scripts_with_a_byte_changed_and_any_texts_are_good_and_bad() {
    let mut random = Random::new(5);
    let original = good(&mut random);
    let changed = |random: &mut Random| {
        let mut script = original.clone();
        put_change(random, &mut script);
        script
    };
    let both = |scripts: Vec<Vec<u8>>| {
        let good = scripts.iter().filter(|script| read_script(script).is_ok()).count();
        assert!(good >= 20 && scripts.len() - good >= 20, "{good} of {}", scripts.len());
    };
    both((0..400).map(|_| changed(&mut random)).collect());
    both((0..400).map(|_| any_text(&mut random)).collect());
}
