//! Times of several ways to do one thing, taken in turn.

use std::hint::black_box;
use std::time::Instant;

/// How many calls a run makes, and how many runs each way has.
pub struct Effort {
    pub calls: usize,
    pub runs: usize,
}

/// A way to do a thing: its name, and a run of so many calls, in seconds.
pub struct Way<'a> {
    name: &'static str,
    run: Box<dyn FnMut(usize) -> f64 + 'a>,
}

/// The way that makes this call. What the call gives is used, so that it is made.
pub fn way<'a>(name: &'static str, mut call: impl FnMut() -> usize + 'a) -> Way<'a> {
    let run = move |calls| {
        let begun = Instant::now();
        let mut sum = 0usize;
        for _ in 0..calls {
            sum = sum.wrapping_add(call());
        }
        black_box(sum);
        begun.elapsed().as_secs_f64()
    };
    Way { name, run: Box::new(run) }
}

/// The least time of ours, and the least of the quickest other way, in seconds.
pub struct Times {
    pub ours: f64,
    pub plain: f64,
    pub quickest: &'static str,
}

impl Times {
    pub fn ratio(&self) -> f64 {
        self.ours / self.plain
    }
}

/// Bytes that begin where a line of the cache does, so that no way is lent a worse place than another.
#[repr(align(64))]
pub struct Line(pub [u8; 64]);

/// A run with the stack so many bytes lower: where a function's own arrays stand in the lines of the cache decides much of its time.
#[inline(never)]
fn lower<const BYTES: usize>(way: &mut Way, calls: usize) -> f64 {
    let taken = black_box([0u8; BYTES]);
    let time = (way.run)(calls);
    black_box(&taken);
    time
}

/// The places in a line that a stack can have.
const PLACES: [fn(&mut Way, usize) -> f64; 4] =
    [lower::<16>, lower::<32>, lower::<48>, lower::<64>];

/// Runs all ways in turn, from each place alike, and takes the least time of each.
pub fn compare(effort: &Effort, ours: Way, others: Vec<Way>) -> Times {
    let mut ways: Vec<Way> = std::iter::once(ours).chain(others).collect();
    let mut least = vec![f64::INFINITY; ways.len()];
    for run in 0..effort.runs {
        for (way, least) in ways.iter_mut().zip(&mut least) {
            *least = least.min(PLACES[run % PLACES.len()](way, effort.calls));
        }
    }
    let quickest = (1..ways.len()).min_by(|&a, &b| least[a].total_cmp(&least[b]));
    let quickest = quickest.expect("there is another way");
    Times { ours: least[0], plain: least[quickest], quickest: ways[quickest].name }
}

#[cfg(test)]
mod tests {
    use super::*;

    fn takes(name: &'static str, times: &'static [f64]) -> Way<'static> {
        let mut times = times.iter();
        Way { name, run: Box::new(move |_| *times.next().expect("a run")) }
    }

    #[test]
    fn the_least_time_of_each_way_and_the_quickest_other_way_count() {
        let others = vec![takes("slow", &[9.0, 8.0, 7.0]), takes("quick", &[5.0, 2.0, 6.0])];
        let effort = Effort { calls: 1, runs: 3 };
        let times = compare(&effort, takes("ours", &[3.0, 4.0, 1.0]), others);
        assert_eq!((times.ours, times.plain, times.quickest), (1.0, 2.0, "quick"));
        assert_eq!(times.ratio(), 0.5);
    }
}
