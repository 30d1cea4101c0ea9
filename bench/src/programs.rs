//! The console and the same in plain Rust as whole programs: call scripts in, lines out.

use std::fs::{self, File};
use std::io;
use std::path::{Path, PathBuf};
use std::process::Command;
use std::time::Instant;

use bench::console::{record, HEADER, HOME, MOST_STORE};
use bench::service::{REPLY_BYTES, STORE_WORDS};
use bench::slots;

use crate::measure::Times;
use crate::random::Random;

/// What a call is lent: so many words of the store, and bytes of the reply array.
type Lent = (u32, u32);

const LEAST: Lent = (STORE_WORDS as u32, REPLY_BYTES as u32);

fn put_record(script: &mut Vec<u8>, start: &[u8; 16], payload: &[u8], lent: Lent) {
    let at = script.len();
    script.extend(start);
    script[at + 6..at + 8].copy_from_slice(&(payload.len() as u16).to_le_bytes());
    script.extend(lent.0.to_le_bytes());
    script.extend(lent.1.to_le_bytes());
    script.extend(payload);
}

/// A list as a call script without its end: a fresh start with a setting, and each call.
fn script(calls: &[u8], setting: u8, mut lent: impl FnMut() -> Lent) -> Vec<u8> {
    let mut script = Vec::with_capacity(calls.len());
    let mut start = [0; 16];
    (start[0], start[5]) = (record::FRESH, setting);
    put_record(&mut script, &start, &[], (0, 0));
    for call in calls.as_chunks().0 {
        start.copy_from_slice(&call[..16]);
        put_record(&mut script, &start, slots::payload(call), lent());
    }
    script
}

/// Scripts at the edges: stores and reply arrays that are too short or longer than they must be, long payloads, every way that a script ends, and the calls
/// with home in item 0.
fn edges(calls: &[u8]) -> Vec<Vec<u8>> {
    let mut random = Random(4);
    let lent = || {
        let (store, reply) = LEAST;
        (
            random.of(&[0, store - 1, store, store, MOST_STORE]),
            random.of(&[0, reply - 1, reply, 64]),
        )
    };
    let begun = script(calls, 0, lent);
    let ending = |kind: u8, b4: u8, len: usize, lent: Lent| {
        let mut start = [0; 16];
        (start[0], start[5], start[8]) = (kind, b4, 44);
        let mut script = begun.clone();
        put_record(&mut script, &start, &vec![1; len], lent);
        put_record(&mut script, &start, &[1], LEAST);
        script
    };
    let mut scripts = vec![
        ending(record::END, 0, 0, LEAST),
        ending(255, 0, 0, LEAST),
        ending(record::FRESH, HOME, 0, LEAST),
        ending(record::FRESH, 2, 0, LEAST),
        ending(record::MESSAGE, 0, 300, LEAST),
        ending(record::MESSAGE, 0, 301, LEAST),
        ending(record::TIMER, 0, 0, (MOST_STORE, 64)),
        ending(record::TIMER, 0, 0, (MOST_STORE + 1, 64)),
        ending(record::TIMER, 0, 0, (MOST_STORE, 65)),
        begun.clone(),
        script(calls, HOME, || LEAST),
        Vec::new(),
    ];
    let cut = [1, HEADER - 1, HEADER, HEADER + 1].map(|cut| {
        let whole = ending(record::MESSAGE, 0, 0, LEAST);
        whole[..whole.len() - cut].to_vec()
    });
    scripts.extend(cut);
    scripts
}

/// Both programs, and a folder for scripts and lines, which is removed when it is no longer used.
pub struct Programs {
    ours: PathBuf,
    plain: PathBuf,
    folder: PathBuf,
}

impl Drop for Programs {
    fn drop(&mut self) {
        let _ = fs::remove_dir_all(&self.folder);
    }
}

fn with(path: &Path) -> impl Fn(io::Error) -> String + '_ {
    |error| format!("{}: {error}", path.display())
}

impl Programs {
    /// The console that `rt ci` or `rt run` builds, and the program that is built beside this one.
    pub fn new() -> Result<Programs, String> {
        let root = Path::new(env!("CARGO_MANIFEST_DIR")).join("..");
        let this = std::env::current_exe().map_err(|error| error.to_string())?;
        let folder = std::env::temp_dir().join(format!("bench-replay-{}", std::process::id()));
        fs::create_dir_all(&folder).map_err(with(&folder))?;
        Ok(Programs {
            ours: root.join("crates/console/out/console"),
            plain: this.with_file_name("plain_console"),
            folder,
        })
    }

    /// Runs a program over the script in the folder. Its time in seconds, and its lines.
    fn run(&self, program: &Path) -> Result<(f64, Vec<u8>), String> {
        let (script, lines) = (self.folder.join("script"), self.folder.join("lines"));
        let input = File::open(&script).map_err(with(&script))?;
        let output = File::create(&lines).map_err(with(&lines))?;
        let begun = Instant::now();
        let status = Command::new(program).stdin(input).stdout(output).status();
        let taken = begun.elapsed().as_secs_f64();
        let status = status.map_err(with(program))?;
        if !status.success() {
            return Err(format!("{}: {status}", program.display()));
        }
        Ok((taken, fs::read(&lines).map_err(with(&lines))?))
    }

    /// The least times of both over a script, in turn; each run has to print the same lines.
    fn play(&self, runs: usize, script: &[u8]) -> Result<Times, String> {
        let file = self.folder.join("script");
        fs::write(&file, script).map_err(with(&file))?;
        let mut times =
            Times { ours: f64::INFINITY, plain: f64::INFINITY, quickest: "plain_console" };
        for _ in 0..runs {
            let (ours, our_lines) = self.run(&self.ours)?;
            let (plain, plain_lines) = self.run(&self.plain)?;
            same_lines(&our_lines, &plain_lines)?;
            times.ours = times.ours.min(ours);
            times.plain = times.plain.min(plain);
        }
        Ok(times)
    }

    /// The least times of both over a list.
    pub fn play_list(&self, runs: usize, calls: &[u8]) -> Result<Times, String> {
        let mut script = script(calls, 0, || LEAST);
        script.extend([record::END; HEADER]);
        self.play(runs, &script)
    }

    /// Plays the scripts at the edges. How many there are.
    pub fn play_edges(&self, calls: &[u8]) -> Result<usize, String> {
        let scripts = edges(calls);
        for script in &scripts {
            self.play(1, script)?;
        }
        Ok(scripts.len())
    }
}

/// Whether both printed the same lines, else the first that differs.
fn same_lines(ours: &[u8], plain: &[u8]) -> Result<(), String> {
    if ours == plain {
        return Ok(());
    }
    let lines = |bytes| String::from_utf8_lossy(bytes).lines().map(String::from).collect();
    let (ours, plain): (Vec<String>, Vec<String>) = (lines(ours), lines(plain));
    let at = (0..).find(|at| ours.get(*at) != plain.get(*at)).unwrap_or(0);
    let line =
        |lines: &[String]| lines.get(at).map_or("none".to_string(), |line| format!("`{line}`"));
    Err(format!("the two programs differ in line {}: {} and {}", at + 1, line(&ours), line(&plain)))
}

#[cfg(test)]
mod tests {
    use super::{edges, same_lines};
    use crate::mixed::mixed;

    #[test]
    fn the_edges_are_reached() {
        let mut lines = Vec::new();
        for script in edges(&mixed(500)) {
            bench::console::play(&mut &script[..], &mut lines).expect("memory");
        }
        let text = String::from_utf8(lines).expect("text");
        for begin in ["m 14 ", "m 10 ", "t 14 ", "t 10 ", "? cut", "? 255", "? 5", "? 1", "? 2"] {
            assert!(text.lines().any(|line| line.starts_with(begin)), "{begin}");
        }
    }

    #[test]
    fn the_first_line_that_differs_is_told() {
        assert_eq!(same_lines(b"m 1 0 0 -\n", b"m 1 0 0 -\n"), Ok(()));
        let other = same_lines(b"m 1 0 0 -\nt 1 0 0 -\n", b"m 1 0 0 -\nt 0 0 0 -\n");
        assert!(other.is_err_and(|error| error.contains("line 2: `t 1 0 0 -` and `t 0 0 0 -`")));
        let longer = same_lines(b"m 1 0 0 -\n", b"m 1 0 0 -\n? cut\n");
        assert!(longer.is_err_and(|error| error.contains("line 2: none and `? cut`")));
    }
}
