//! Trimming and writing STATUSTEXTs: the same results, and the times.

use std::hint::black_box;

use bench::ours;

use crate::agree::{agree, fields, Trimmer};
use crate::measure::{compare, way, Effort, Line, Times};

use crate::plain::{self, FULL};

/// Calls of a run, and runs of each way.
const WHOLE: Effort = Effort { calls: 1_000_000, runs: 20 };
/// Enough to see that everything runs; its times say nothing.
const BRIEF: Effort = Effort { calls: 1_000, runs: 1 };

pub const OURS: Trimmer = Trimmer { length: ours::length, trim: ours::trim, write: ours::write };
pub const BY_RPOSITION: Trimmer = Trimmer {
    length: plain::length_by_rposition,
    trim: plain::trim_by_rposition,
    write: plain::write_by_rposition,
};
pub const BY_LOOP: Trimmer = Trimmer {
    length: plain::length_by_loop,
    trim: plain::trim_by_loop,
    write: plain::write_by_loop,
};

/// The service's own text, a severity alone, and a message whose last byte is not zero.
fn texts() -> [(&'static str, [u8; FULL]); 3] {
    let mut own = [0; FULL];
    own[0] = 4;
    own[1..21].copy_from_slice(b"no such mission item");
    let mut severity = [0; FULL];
    severity[0] = 4;
    [("own text", own), ("severity alone", severity), ("full", [b'x'; FULL])]
}

fn length(effort: &Effort, bytes: &[u8]) -> Times {
    let lent = || black_box(bytes);
    compare(
        effort,
        way("ours", || ours::length(lent())),
        vec![
            way("rposition", || plain::length_by_rposition(lent())),
            way("loop", || plain::length_by_loop(lent())),
        ],
    )
}

fn trim(effort: &Effort, bytes: &[u8]) -> Times {
    let lent = || black_box(bytes);
    let (mut a, mut b, mut c) = (Line([0; 64]), Line([0; 64]), Line([0; 64]));
    compare(
        effort,
        way("ours", || ours::trim(lent(), black_box(&mut a.0))),
        vec![
            way("rposition", || plain::trim_by_rposition(lent(), black_box(&mut b.0))),
            way("loop", || plain::trim_by_loop(lent(), black_box(&mut c.0))),
        ],
    )
}

fn write(effort: &Effort, bytes: &[u8]) -> Times {
    let lent = || fields(black_box(bytes));
    let (mut a, mut b, mut c) = (Line([0; 64]), Line([0; 64]), Line([0; 64]));
    let ours = || {
        let (severity, text, id, chunk) = lent();
        ours::write(severity, text, id, chunk, black_box(&mut a.0))
    };
    let by_rposition = || {
        let (severity, text, id, chunk) = lent();
        plain::write_by_rposition(severity, text, id, chunk, black_box(&mut b.0))
    };
    let by_loop = || {
        let (severity, text, id, chunk) = lent();
        plain::write_by_loop(severity, text, id, chunk, black_box(&mut c.0))
    };
    compare(effort, way("ours", ours), vec![way("rposition", by_rposition), way("loop", by_loop)])
}

/// The lines of one thing measured, for each text; their largest ratio.
fn lines(effort: &Effort, what: &str, measured: fn(&Effort, &[u8]) -> Times) -> f64 {
    let mut largest = 0f64;
    for (name, bytes) in texts() {
        let mut line = Line([0; 64]);
        line.0[..FULL].copy_from_slice(&bytes);
        let times = measured(effort, &line.0[..FULL]);
        let (ours, plain) = (times.ours * 1e3, times.plain * 1e3);
        println!(
            "{what:<7} {name:<15} ours {ours:7.3} ms, plain Rust {plain:7.3} ms ({}), ratio {:.2}",
            times.quickest,
            times.ratio()
        );
        largest = largest.max(times.ratio());
    }
    largest
}

/// Compares, measures, and prints; the last line is trimming's largest ratio.
pub fn run(brief: bool) -> Result<(), String> {
    let effort = &if brief { BRIEF } else { WHOLE };
    let texts = texts().map(|(_, bytes)| bytes);
    let agree = |other| {
        agree(&OURS, other, &texts).map_err(|difference| format!("the two differ: {difference}"))
    };
    let compared = agree(&BY_RPOSITION)? + agree(&BY_LOOP)?;
    println!("bench: the same lengths and bytes from both on {compared} inputs");
    println!("{} calls, the least of {} runs in turn", effort.calls, effort.runs);
    lines(effort, "length", length);
    let trimming = lines(effort, "trim", trim);
    let writing = lines(effort, "write", write);
    println!("whole writer {writing:.2}");
    println!("ratio {trimming:.2}");
    Ok(())
}

#[cfg(test)]
mod tests {
    use super::*;

    #[test]
    fn all_agree() {
        let texts = texts().map(|(_, bytes)| bytes);
        assert!(agree(&OURS, &BY_RPOSITION, &texts).is_ok());
        assert!(agree(&OURS, &BY_LOOP, &texts).is_ok());
    }

    #[test]
    fn of_no_bytes_none_are_left() {
        assert_eq!(ours::length(&[]), 0);
    }

    fn one_byte_early(bytes: &[u8]) -> usize {
        (ours::length(bytes) + 1).min(bytes.len())
    }

    fn none_of_zeros(bytes: &[u8]) -> usize {
        if bytes.iter().all(|&byte| byte == 0) {
            0
        } else {
            ours::length(bytes)
        }
    }

    fn zeros_past_the_length(bytes: &[u8], out: &mut [u8]) -> usize {
        let n = ours::trim(bytes, out);
        out[n..].fill(0);
        n
    }

    fn high_byte_lost(severity: u8, text: &[u8], id: u16, chunk: u8, out: &mut [u8]) -> usize {
        ours::write(severity, text, id % 256, chunk, out)
    }

    #[test]
    fn each_fault_is_found() {
        for wrong in [
            Trimmer { length: one_byte_early, ..OURS },
            Trimmer { length: none_of_zeros, ..OURS },
            Trimmer { trim: zeros_past_the_length, ..OURS },
            Trimmer { write: high_byte_lost, ..OURS },
        ] {
            assert!(agree(&OURS, &wrong, &[]).is_err());
        }
    }
}
