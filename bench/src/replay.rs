//! Whole lists of calls: the same replies, and the times of the programs and of the service alone.

use bench::ours;
use bench::service::*;
use bench::slots::{self, MESSAGE, SLOT};

use crate::lists::LISTS;
use crate::measure::{compare, way, Effort, Times};
use crate::mixed::mixed;
use crate::programs::Programs;

/// Runs of the programs and of the services over a list.
#[derive(Clone, Copy)]
struct Runs {
    programs: usize,
    services: usize,
}

/// Calls of a list, and runs.
const WHOLE: (usize, Runs) = (1_000_000, Runs { programs: 8, services: 20 });
/// Enough to see that everything runs; its times say nothing.
const BRIEF: (usize, Runs) = (20_000, Runs { programs: 1, services: 1 });
/// Calls of a script at the edges.
const EDGE_CALLS: usize = 2_000;

/// The ids that the service reads.
const IDS: [u32; 8] =
    [WRITE_PARTIAL_LIST, SET_CURRENT, REQUEST_LIST, COUNT, CLEAR_ALL, ACK, REQUEST_INT, ITEM_INT];
const KIND_NAMES: [&str; KINDS] = ["flight", "fence", "rally"];

/// What stands in a list: calls by id, timer calls, calls of other ids, and by kind completed uploads, whole ones of full size and partial ones.
#[derive(Default)]
struct Seen {
    ids: [usize; IDS.len()],
    timers: usize,
    others: usize,
    uploads: [usize; KINDS],
    partial: [usize; KINDS],
}

/// Counts in a list, by its calls and by what they returned.
fn seen(calls: &[u8], told: &[u8]) -> Seen {
    let mut seen = Seen::default();
    let mut started_by = [COUNT; KINDS];
    for (call, told) in calls.as_chunks().0.iter().zip(told.as_chunks().0) {
        let id = slots::id(call);
        if call[0] != MESSAGE {
            seen.timers += 1;
        } else if let Some(at) = IDS.iter().position(|known| *known == id) {
            seen.ids[at] += 1;
        } else {
            seen.others += 1;
        }
        if let Some(kind) = started(call, told) {
            started_by[kind] = id;
        }
        match completed(call, told) {
            Some((kind, _)) if started_by[kind] == WRITE_PARTIAL_LIST => seen.partial[kind] += 1,
            Some((kind, count)) if count == SIZES[kind] => seen.uploads[kind] += 1,
            _ => {}
        }
    }
    seen
}

/// The kind of an upload that a call started: it was answered with a request.
fn started(call: &[u8; SLOT], told: &[u8; SLOT]) -> Option<usize> {
    let starts = call[0] == MESSAGE && [COUNT, WRITE_PARTIAL_LIST].contains(&slots::id(call));
    (starts && slots::id_told(told) == REQUEST_INT).then_some(usize::from(told[12]))
}

/// The kind of an upload that a call completed, and how many items there are up to its last one: this was answered with ACK 0.
fn completed(call: &[u8; SLOT], told: &[u8; SLOT]) -> Option<(usize, u16)> {
    let is_item = call[0] == MESSAGE && slots::id(call) == ITEM_INT;
    let seq = u16::from_le_bytes([call[44], call[45]]);
    let (result, kind) = (told[10], usize::from(told[11]));
    let accepted = told[0] == 0 && slots::id_told(told) == ACK && result == 0;
    (is_item && accepted).then_some((kind, seq + 1))
}

impl Seen {
    fn print(&self, name: &str) {
        let ids: Vec<String> =
            IDS.iter().zip(self.ids).map(|(id, calls)| format!("{id} {calls}")).collect();
        println!(
            "{name:<7} calls by id {}, timer {}, other ids {}",
            ids.join(", "),
            self.timers,
            self.others
        );
        let by_kind = |counts: [usize; KINDS]| {
            let counts = KIND_NAMES.iter().zip(counts).map(|(kind, n)| format!("{kind} {n}"));
            counts.collect::<Vec<String>>().join(", ")
        };
        println!("{name:<7} full-size uploads completed: {}", by_kind(self.uploads));
        println!("{name:<7} partial uploads completed: {}", by_kind(self.partial));
    }

    /// Whether every id, the timer, and full-size and partial uploads of every kind are there.
    fn all_there(&self) -> bool {
        let uploads = self.uploads.iter().chain(&self.partial);
        self.ids.iter().chain(uploads).chain([&self.timers]).all(|count| *count > 0)
    }
}

/// Plays a list over both services, and sees that they return the same. What they told.
fn same_replies(calls: &[u8]) -> Result<Vec<u8>, String> {
    let (mut ours, mut plain) = (vec![0; calls.len()], vec![0; calls.len()]);
    let our_sum = ours::replay(calls, &mut [0; STORE_WORDS], &mut ours);
    let plain_sum = slots::replay(calls, &mut plain);
    same_told(calls, &ours, &plain)?;
    if our_sum != plain_sum {
        return Err(format!("the two services differ in their sums: {our_sum} and {plain_sum}"));
    }
    Ok(ours)
}

/// Whether both told the same of every call, else the first call on which they differ.
fn same_told(calls: &[u8], ours: &[u8], plain: &[u8]) -> Result<(), String> {
    let mut told = ours.as_chunks::<SLOT>().0.iter().zip(plain.as_chunks::<SLOT>().0);
    let Some(at) = told.position(|(a, b)| a != b) else {
        return Ok(());
    };
    let slot = at * SLOT..(at + 1) * SLOT;
    let [call, ours, plain] = [calls, ours, plain].map(|bytes| {
        let slot = &bytes[slot.clone()];
        &slot[..slot.iter().rposition(|byte| *byte != 0).map_or(0, |last| last + 1)]
    });
    Err(format!("the two services differ in call {at}, {call:?}: {ours:?} and {plain:?}"))
}

/// The least times of both services over a list, which tell nothing meanwhile.
fn play_services(runs: usize, calls: &[u8]) -> Times {
    let mut store = vec![0; STORE_WORDS];
    compare(
        &Effort { calls: 1, runs },
        way("ours", || ours::replay(calls, &mut store, &mut []) as usize),
        vec![way("plain", || slots::replay(calls, &mut []) as usize)],
    )
}

/// Compares and measures one list, and prints its lines. The times of the programs, and of the services.
fn measure(
    name: &str,
    calls: &[u8],
    programs: &Programs,
    runs: Runs,
) -> Result<[Times; 2], String> {
    let seen = seen(calls, &same_replies(calls)?);
    seen.print(name);
    if name == "mixed" && !seen.all_there() {
        return Err("the list mixed lacks an id, the timer or an upload".to_string());
    }
    let whole = programs.play_list(runs.programs, calls)?;
    let alone = play_services(runs.services, calls);
    let each = |time: f64| time * 1e9 / (calls.len() / SLOT) as f64;
    println!(
        "{name:<7} programs ours {:7.3} s,  plain Rust {:7.3} s,  ratio {:.2}",
        whole.ours,
        whole.plain,
        whole.ratio()
    );
    println!(
        "{name:<7} service  ours {:7.1} ns, plain Rust {:7.1} ns, ratio {:.2}",
        each(alone.ours),
        each(alone.plain),
        alone.ratio()
    );
    Ok([whole, alone])
}

/// Compares, measures, and prints; the last line has the largest ratios.
pub fn run(brief: bool) -> Result<(), String> {
    let (calls, runs) = if brief { BRIEF } else { WHOLE };
    let programs = Programs::new()?;
    println!(
        "{calls} calls a list, the least of {} runs of the programs and {} of the services in turn",
        runs.programs, runs.services
    );
    let mut largest = [0f64; 2];
    for (name, list) in LISTS {
        let times = measure(name, &list(calls), &programs, runs)?;
        largest = [0, 1].map(|at| largest[at].max(times[at].ratio()));
    }
    let edges = programs.play_edges(&mixed(EDGE_CALLS))?;
    println!(
        "bench: the same lines and the same replies from both to {} calls, and to {edges} scripts at the edges",
        calls * LISTS.len()
    );
    println!("ratio programs {:.2} service {:.2}", largest[0], largest[1]);
    Ok(())
}

/// Plays a list once over one service, for a profiler.
pub fn once(whose: &str, name: &str) -> Result<(), String> {
    let (_, list) = LISTS.iter().find(|(known, _)| *known == name).ok_or("no such list")?;
    let calls = list(WHOLE.0);
    let sum = match whose {
        "ours" => ours::replay(&calls, &mut [0; STORE_WORDS], &mut []),
        "plain" => slots::replay(&calls, &mut []),
        _ => return Err("ours or plain".to_string()),
    };
    println!("sum {sum}");
    Ok(())
}

#[cfg(test)]
mod tests {
    use super::*;

    #[test]
    fn a_reply_that_differs_is_found() {
        let calls = mixed(1_000);
        let told = same_replies(&calls).expect("the same replies");
        assert_eq!(same_told(&calls, &told, &told), Ok(()));
        for at in [0, 1, 4, 8, 999 * SLOT + 1] {
            let mut other = told.clone();
            other[at] ^= 1;
            assert!(same_told(&calls, &told, &other).is_err());
        }
    }

    #[test]
    fn what_a_list_lacks_is_seen() {
        let all_there = |list: fn(usize) -> Vec<u8>| {
            let calls = list(BRIEF.0);
            seen(&calls, &same_replies(&calls).expect("the same replies")).all_there()
        };
        assert_eq!(LISTS.map(|(_, list)| all_there(list)), [true, false, false]);
    }
}
