//! Lists of calls in slots, as the crate `replay` plays them: here over the service in plain Rust.

use crate::service::{Message, Served, Service, Station, STORE_WORDS};

/// A call stands in a slot: 0 message (1) or timer (2), 1 and 2 own system and component, 3 and 4 the sender's, 5 kind, 6 length of the payload, 8 id,
/// 12 clock, 16 payload. What it returned is told in a slot too: 0 outcome, 1 length, 4 id, 8 the reply's bytes.
pub const SLOT: usize = 64;
pub const MESSAGE: u8 = 1;
pub const TIMER: u8 = 2;
pub const MOST_PAYLOAD: usize = 48;
const REPLY_ARRAY: usize = 64;

fn number(slot: &[u8; SLOT], at: usize) -> u32 {
    u32::from_le_bytes([slot[at], slot[at + 1], slot[at + 2], slot[at + 3]])
}

pub fn id(slot: &[u8; SLOT]) -> u32 {
    number(slot, 8)
}

pub fn clock(slot: &[u8; SLOT]) -> u32 {
    number(slot, 12)
}

pub fn payload(slot: &[u8; SLOT]) -> &[u8] {
    &slot[16..16 + usize::from(slot[6]).min(MOST_PAYLOAD)]
}

/// The id of a reply that is told.
pub fn id_told(slot: &[u8; SLOT]) -> u32 {
    number(slot, 4)
}

/// Makes the call of a slot.
pub fn serve(service: &mut Service, slot: &[u8; SLOT], reply: &mut [u8]) -> Served {
    if slot[0] != MESSAGE {
        return service.timer(slot[5], clock(slot), STORE_WORDS, reply);
    }
    let call = Message {
        own: Station { system: slot[1], component: slot[2] },
        sender: Station { system: slot[3], component: slot[4] },
        id: id(slot),
        payload: payload(slot),
        clock: clock(slot),
    };
    service.message(&call, STORE_WORDS, reply)
}

fn tell(told: &mut [u8], served: Served, reply: &[u8]) {
    told[..8].copy_from_slice(&[served.outcome, served.len as u8, 0, 0, 0, 0, 0, 0]);
    told[4..8].copy_from_slice(&served.id.to_le_bytes());
    told[8..8 + served.len].copy_from_slice(&reply[..served.len]);
}

/// Plays the calls of a list from a fresh start without home in item 0, tells what they return as far as there is room, and answers the sum of it.
#[inline(never)]
pub fn replay(calls: &[u8], told: &mut [u8]) -> u64 {
    let mut service = Service::fresh(false);
    let mut reply = [0; REPLY_ARRAY];
    let mut told = told.chunks_exact_mut(SLOT);
    let mut sum = 0u64;
    for slot in calls.as_chunks().0 {
        let served = serve(&mut service, slot, &mut reply);
        if let Some(told) = told.next() {
            tell(told, served, &reply);
        }
        let total = u64::from(served.outcome) + u64::from(served.id) + served.len as u64;
        sum = sum.wrapping_add(total);
    }
    sum
}
