//! Scripts with the lines they must print, byte for byte, and scripts of any
//! bytes, which are all answered.

use reference::fault::Fault;
use reference::generate::{List, Script};
use reference::player::play;
use reference::random::Random;

#[test]
fn d_edges() {
    prints(include_bytes!("samples/d_edges.bin"), include_str!("samples/d_edges.exp"));
}

#[test]
fn m101() {
    prints(include_bytes!("samples/m101.bin"), include_str!("samples/m101.exp"));
}

#[test]
fn m105() {
    prints(include_bytes!("samples/m105.bin"), include_str!("samples/m105.exp"));
}

#[test]
fn m106_words() {
    prints(include_bytes!("samples/m106_words.bin"), include_str!("samples/m106_words.exp"));
}

#[test]
fn m106_move() {
    prints(include_bytes!("samples/m106_move.bin"), include_str!("samples/m106_move.exp"));
}

#[test]
fn m108_ranges() {
    prints(include_bytes!("samples/m108_ranges.bin"), include_str!("samples/m108_ranges.exp"));
}

#[test]
fn m108_half() {
    prints(include_bytes!("samples/m108_half.bin"), include_str!("samples/m108_half.exp"));
}

#[test]
fn m109() {
    prints(include_bytes!("samples/m109.bin"), include_str!("samples/m109.exp"));
}

#[test]
fn m109_host() {
    prints(include_bytes!("samples/m109_host.bin"), include_str!("samples/m109_host.exp"));
}

fn prints(mut script: &[u8], expected: &str) {
    let mut lines = Vec::new();
    play(&mut script, &mut lines, Fault::None).unwrap();
    let lines = String::from_utf8(lines).unwrap();
    for (number, (line, wanted)) in lines.lines().zip(expected.lines()).enumerate() {
        assert_eq!(line, wanted, "line {}", number + 1);
    }
    assert_eq!(lines, expected);
}

#[test]
fn any_input_is_answered() {
    let mut random = Random::new(1);
    for len in 0..2000 {
        let bytes: Vec<u8> = (0..len % 100).map(|_| random.byte()).collect();
        play(&mut &bytes[..], &mut Vec::new(), Fault::None).unwrap();
    }
}

#[test]
fn spoiled_scripts_are_answered() {
    let mut random = Random::new(2);
    for list in (0..200).flat_map(|seed| [List::plain(seed, 100), List::home(seed, 100)]) {
        let mut bytes = Script::joined(list.scripts()).bytes();
        for _ in 0..random.within(1, 20) {
            let at = random.below(bytes.len());
            bytes[at] = random.byte();
        }
        play(&mut &bytes[..], &mut Vec::new(), Fault::None).unwrap();
    }
}
