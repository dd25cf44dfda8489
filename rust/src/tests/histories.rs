//! The histories H1 to H11 of document 01, with covered frames, the title and "`v` and `e` for `b`" as 02 has them, and one
//! more. Behind a `v` that is refused no `e` follows.

use crate::script::play;
use crate::tests::counts::counts_after_each_call;
use crate::tests::script_of;

/// N, S and the bodies, separated by `;`.
pub type History<'a> = (u32, u32, &'a str);

pub const H1: History = (4, 3, "v 0 10 20 2; e 0; s 0; s 0; v 1 15 25 2; e 1; s 1; r 0; s 1; s 1; s 1; s 1");
pub const H2: History = (4, 4, "v 0 10 20 2; e 0; s 0; s 0; v 1 20 30 2; e 1; s 1; s 1; s 1; s 1");
pub const H3: History = (4, 4, "v 0 10 20 2; e 0; s 0; s 0; v 1 19 30 2; e 1; s 1; s 1");
pub const H4: History = (4, 4, "v 0 0 100 1; e 0; s 0; s 0; v 1 50 60 1; e 1; s 1; s 1; s 1; v 2 70 80 2; e 2; s 2");
pub const H5: History = (4, 4, "v 0 5 9 1; e 0; s 0; s 0; v 1 5 9 1; e 1; s 1; s 1; s 1");
pub const H6: History = (1, 4, "v 0 0 10 2; e 0; s 0; s 0; r 0; v 0 0 10 2; e 0");
pub const H7: History = (1, 4, "v 0 0 10 2; e 0; s 0; s 0; v 1 0 10 2");
pub const H8: History = (2, 4, "v 0 0 10 2; e 0; s 0; s 0; v 1 0 10 2; e 1; s 1; r 0; v 0 0 10 2");
pub const H9: History = (
    8,
    4,
    "v 0 1 10 1; e 0; s 0; s 0; v 1 12 14 1; e 1; s 1; s 1; s 1; v 2 5 20 1; e 2; v 3 15 20 2; e 3; \
     s 3; s 3; s 2; s 2; s 3; s 2; s 2; s 3; s 3; s 2; s 2; s 2",
);
/// What H10 adds to H9.
pub const THEN_H10: &str = "s 3; s 3; s 3; s 3";
pub const H11: History = (4, 4, "v 0 7 7 2; v 0 0 4294967295 2; e 0");

/// Plays a history, and gives the answers and the closing lines separated by `;`. After each call the counts of holders are
/// right.
fn played((nodes, seats, bodies): History) -> String {
    let script = script_of(nodes, seats, bodies);
    counts_after_each_call(script.as_bytes());
    let text = play(script.as_bytes());
    let mut lines: Vec<String> = text.lines().map(str::to_string).collect();
    for (number, line) in (1..=bodies.split("; ").count()).zip(&mut lines) {
        *line = line.strip_prefix(&format!("{number} ")).expect("the number of the call").to_string();
    }
    lines.join("; ")
}

#[test]
fn h1_the_script_of_the_document() {
    let script = b"4 3 12 4294967295\nv 0 10 20 2\ne 0\ns 0\ns 0\nv 1 15 25 2\ne 1\ns 1\nr 0\ns 1\ns 1\ns 1\ns 1\n";
    let printed = "1 node 1\n2 on\n3 on\n4 held\n5 node 2\n6 on\n7 wait 1 15 20\n8 out\n9 on\n10 on\n11 on\n12 held\n\
                   list 2\nhold 1 15 25 2\ncovered 10\n";
    assert_eq!(script_of(H1.0, H1.1, H1.2).as_bytes(), script);
    assert_eq!(play(script), printed);
}

#[test]
fn h2_writers_that_touch_both_hold() {
    assert_eq!(
        played(H2),
        "node 1; on; on; held; node 2; on; on; on; on; held; list 1 2; hold 0 10 20 2; hold 1 20 30 2; covered 20"
    );
}

#[test]
fn h3_a_writer_that_shares_a_frame_waits() {
    assert_eq!(
        played(H3),
        "node 1; on; on; held; node 2; on; wait 1 19 20; wait 1 19 20; list 1; hold 0 10 20 2; covered 10"
    );
}

#[test]
fn h4_readers_share_and_a_writer_waits_at_the_first() {
    assert_eq!(
        played(H4),
        "node 1; on; on; held; node 2; on; on; on; held; node 3; on; wait 1 70 80; \
         list 1 2; hold 0 0 100 1; hold 1 50 60 1; covered 100"
    );
}

#[test]
fn h5_two_readers_of_the_same_frames_hold() {
    assert_eq!(
        played(H5),
        "node 1; on; on; held; node 2; on; on; on; held; list 1 2; hold 0 5 9 1; hold 1 5 9 1; covered 4"
    );
}

#[test]
fn h6_a_released_node_is_taken_out_and_taken_again() {
    assert_eq!(played(H6), "node 1; on; on; held; out; node 1; on; list; covered 0");
}

#[test]
fn h7_no_node_while_the_only_one_is_held() {
    assert_eq!(played(H7), "node 1; on; on; held; no 8; list 1; hold 0 0 10 2; covered 10");
}

#[test]
fn h8_no_node_while_a_waiter_can_reach_it_and_the_list_stays() {
    assert_eq!(played(H8), "node 1; on; on; held; node 2; on; wait 1 0 10; out; no 8; list 1; covered 0");
}

const H9_ANSWERS: &str = "node 1; on; on; held; node 2; on; on; on; held; node 3; on; node 4; on; \
                          on; on; on; on; on; on; wait 4 15 20; on; back; on; on; held";

#[test]
fn h9_a_reader_looks_ahead_and_the_writer_goes_back() {
    let closing = "list 1 3 2; hold 0 1 10 1; hold 1 12 14 1; hold 2 5 20 1; covered 19";
    assert_eq!(played(H9), format!("{H9_ANSWERS}; {closing}"));
}

#[test]
fn h10_the_writer_fetches_its_old_node_and_waits_at_the_reader() {
    let closing = "list 1 3 2; hold 0 1 10 1; hold 1 12 14 1; hold 2 5 20 1; covered 19";
    assert_eq!(
        played((H9.0, H9.1, &format!("{}; {THEN_H10}", H9.2))),
        format!("{H9_ANSWERS}; on; on; on; wait 3 15 20; {closing}")
    );
}

#[test]
fn h11_an_empty_run_is_refused_and_the_longest_is_not() {
    assert_eq!(played(H11), "no 3; node 1; on; list; covered 0");
}

#[test]
fn a_node_that_a_walker_can_still_reach_through_another_is_not_free() {
    let both_hold = "v 0 0 10 2; e 0; s 0; s 0; v 1 20 30 2; e 1; s 1; s 1; s 1; s 1";
    let waits_at_the_first = "v 2 0 10 2; e 2; s 2";
    let both_leave_the_list = "r 0; r 1; v 3 50 60 2; e 3; s 3; s 3; s 3; s 3";
    assert_eq!(
        played((4, 4, &format!("{both_hold}; {waits_at_the_first}; {both_leave_the_list}; v 0 0 1 2"))),
        "node 1; on; on; held; node 2; on; on; on; on; held; node 3; on; wait 1 0 10; out; out; \
         node 4; on; on; on; on; held; no 8; \
         list 4; hold 3 50 60 2; covered 10"
    );
}
