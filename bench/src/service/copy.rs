//! A message's few bytes, copied in line.

/// Copies at most 48 bytes to the start of others, by blocks of which the last may overlap the one before: a call for so few takes longer.
#[inline(always)]
pub fn copy(from: &[u8], to: &mut [u8]) {
    debug_assert!(from.len() <= 48);
    match from.len() {
        0..4 => {
            for (to, from) in to.iter_mut().zip(from) {
                *to = *from;
            }
        }
        4..8 => ends::<4>(from, to),
        8..16 => ends::<8>(from, to),
        16..32 => ends::<16>(from, to),
        _ => {
            to[..16].copy_from_slice(&from[..16]);
            to[16..32].copy_from_slice(&from[16..32]);
            let last = from.len() - 16;
            to[last..last + 16].copy_from_slice(&from[last..]);
        }
    }
}

/// Copies the first and the last bytes, so many of each.
#[inline(always)]
fn ends<const BLOCK: usize>(from: &[u8], to: &mut [u8]) {
    let last = from.len() - BLOCK;
    to[..BLOCK].copy_from_slice(&from[..BLOCK]);
    to[last..last + BLOCK].copy_from_slice(&from[last..]);
}
