//! The rule on a whole fence of valid items.

use super::item::{Item, RETURN_POINT, VERTEX_EXCLUSION, VERTEX_INCLUSION};

/// Vertices fall into runs, read from the start, each of as many neighbours with one command as its param 1 says; and at most one return point.
pub fn fits(items: &[Item]) -> bool {
    let mut return_points = 0;
    let mut at = 0;
    while at < items.len() {
        match items[at].command() {
            VERTEX_INCLUSION | VERTEX_EXCLUSION => {
                let vertices = items[at].param1() as usize;
                match items[at..].get(..vertices) {
                    Some(run) if is_run(run) => at += vertices,
                    _ => return false,
                }
            }
            RETURN_POINT => {
                return_points += 1;
                at += 1;
            }
            _ => at += 1,
        }
    }
    return_points <= 1
}

fn is_run(run: &[Item]) -> bool {
    let first = &run[0];
    run.iter().all(|item| item.command() == first.command() && item.param1() == first.param1())
}
