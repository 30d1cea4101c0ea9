//! The rule on a whole fence, checked at its last item.

use crate::fault::Fault;
use crate::items::{whole, RETURN_POINT, VERTEX_EXCLUSION, VERTEX_INCLUSION};
use crate::layout::Item;

/// Vertices fall into runs, read from the start; at most one return point.
pub fn fence_fits(items: &[Item], fault: Fault) -> bool {
    let mut return_points = 0;
    let mut at = 0;
    while at < items.len() {
        match items[at].command {
            VERTEX_INCLUSION | VERTEX_EXCLUSION => match run_length(&items[at..], fault) {
                Some(length) => at += length,
                None => return false,
            },
            RETURN_POINT => {
                return_points += 1;
                at += 1;
            }
            _ => at += 1,
        }
    }
    return_points <= 1 || fault.is(Fault::FenceTwoReturns)
}

/// The length of the run that the first item starts, if it is a run: m
/// neighbours with its command and param 1 = m.
fn run_length(items: &[Item], fault: Fault) -> Option<usize> {
    let command = items[0].command;
    let vertices = whole(items[0].params[0]).filter(|m| *m >= 1)?;
    let mut length = usize::try_from(vertices).ok()?;
    if length > items.len() && fault.is(Fault::FenceEndUnchecked) {
        length = items.len();
    }
    let run = items.get(..length)?;
    let belongs = |item: &Item| {
        let skipped = item.command > VERTEX_EXCLUSION && fault.is(Fault::FenceGaps);
        skipped || (item.command == command && whole(item.params[0]) == Some(vertices))
    };
    run.iter().all(belongs).then_some(length)
}

#[cfg(test)]
mod tests {
    use super::*;

    /// A fence from commands and first params.
    fn fits(fence: &[(u16, f32)]) -> bool {
        let item = |(command, first): &(u16, f32)| {
            let mut item = Item { command: *command, ..Item::default() };
            item.params[0] = first.to_bits();
            item
        };
        fence_fits(&fence.iter().map(item).collect::<Vec<_>>(), Fault::None)
    }

    #[test]
    fn runs() {
        assert!(fits(&[]));
        assert!(fits(&[(5001, 3.0); 3]));
        assert!(fits(&[(5001, 3.0); 6]));
        assert!(!fits(&[(5001, 3.0); 4]));
        assert!(!fits(&[(5001, 3.0), (5001, 3.0), (5001, 4.0)]));
        assert!(!fits(&[(5001, 3.0), (5001, 3.0), (5002, 3.0)]));
        assert!(fits(&[[(5001, 3.0); 3], [(5002, 3.0); 3]].concat()));
    }

    #[test]
    fn between_runs() {
        let run = [(5002, 3.0); 3];
        let circle = (5003, 1.0);
        assert!(fits(&[&run[..], &[circle], &run[..]].concat()));
        assert!(!fits(&[&run[..2], &[circle], &run[..1]].concat()));
        assert!(fits(&[&[(5000, 0.0)], &run[..], &[circle, circle]].concat()));
        assert!(!fits(&[(5000, 0.0), circle, (5000, 0.0)]));
    }

    #[test]
    fn params_that_only_a_host_writes() {
        assert!(fits(&[(5001, 1.0)]));
        assert!(fits(&[(5001, 2.0); 2]));
        assert!(!fits(&[(5001, 0.0)]));
        assert!(!fits(&[(5001, -1.0)]));
        assert!(!fits(&[(5001, 1.5)]));
        assert!(!fits(&[(5001, f32::NAN)]));
        assert!(!fits(&[(5001, f32::MAX)]));
        assert!(fits(&[(16, f32::NAN), (5100, 0.0)]));
    }
}
