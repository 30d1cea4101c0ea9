//! Plans that the service over bytes wrote, at commit 6c96618: `moved/base.bin` is
//! a call script over its store of bytes, `moved/base.exp` what its console printed.
//! After the move they are as they were, and a move with a fault shows.

use reference::compare::printed;
use reference::fault::Fault;
use reference::moved::Moved;

const SCRIPT: &[u8] = include_bytes!("moved/base.bin");
const LINES: &str = include_str!("moved/base.exp");

/// The first line that is otherwise after a move with a fault.
fn difference(lines: &str, fault: Fault) -> Option<String> {
    let moved = Moved::read(SCRIPT, lines).unwrap();
    moved.difference(&printed(&moved.script(), fault))
}

#[test]
fn answers_as_before_the_move() {
    assert_eq!(difference(LINES, Fault::None), None);
}

#[test]
fn every_kind_is_asked_for() {
    let moved = Moved::read(SCRIPT, LINES).unwrap();
    let lines = String::from_utf8(printed(&moved.script(), Fault::None)).unwrap();
    for list in ["m 0 44 6 1500FFBE0002\n", "m 0 44 6 0E00FFBE0103\n", "m 0 44 6 0500FFBE0203\n"] {
        assert!(lines.contains(list), "{list}");
    }
    let items = lines.lines().filter(|line| line.starts_with("m 0 73 "));
    assert_eq!(items.count(), 21 + 2 * 14 + 5 + 21);
}

#[test]
fn a_fault_of_the_move_shows() {
    for fault in [
        Fault::MoveShortAt26752,
        Fault::MoveKeepsUpload,
        Fault::MoveForgetsRally,
        Fault::MoveOtherHalf,
        Fault::MoveToFirstHalf,
        Fault::MoveResetsProgress,
    ] {
        assert!(difference(LINES, fault).is_some(), "{fault:?}");
    }
}

#[test]
fn another_answer_before_the_move_shows() {
    let last = LINES.lines().last().unwrap();
    let other = LINES.replace(last, &last.replace("FFBE", "FFBF"));
    let shown = difference(&other, Fault::None).unwrap();
    assert!(shown.contains("FFBF") && shown.ends_with(last), "{shown}");
}

#[test]
fn what_cannot_be_read() {
    let refused = |script: &[u8], lines: &str| Moved::read(script, lines).err().unwrap();
    assert_eq!(refused(&[], LINES), "the script has no DUMP");
    assert_eq!(refused(SCRIPT, "m 0 51 4 0000FFBE\n"), "the lines have no DUMP");
    assert!(refused(&SCRIPT[..30], LINES).starts_with("the script cannot be read"));
    let more = format!("{LINES}d 1 finished\n");
    assert_eq!(refused(SCRIPT, &more), "not one answer to each call behind the DUMP");
    let strange = LINES.replace("\nD 0\n", "\nD 15\n");
    assert_eq!(refused(SCRIPT, &strange), "the DUMP's line D 15 cannot be read");
}
