//! A message written into the reply buffer, trimmed.

use super::copy::copy;
use super::item::Item;
use super::{outcome, Served, Station, ITEM_BYTES, ITEM_INT, REPLY_BYTES};

/// The part of a reply buffer that has room for every message.
pub type Out<'a> = &'a mut [u8; REPLY_BYTES];

/// Drops trailing zeros, but keeps at least one byte. What is past the reply stays as it was.
#[inline(always)]
pub fn write<const FULL: usize>(reply: Out, id: u32, bytes: &[u8; FULL]) -> Served {
    let mut len = FULL;
    while len > 1 && bytes[len - 1] == 0 {
        len -= 1;
    }
    copy(&bytes[..len], reply);
    Served { outcome: outcome::REPLY, id, len }
}

/// Writes a stored item with the address and the current field of this reply.
#[inline(always)]
pub fn write_item(reply: Out, item: &Item, to: Station, current: bool) -> Served {
    let of_this_reply = |bytes: &mut [u8]| {
        bytes[32] = to.system;
        bytes[33] = to.component;
        bytes[35] = u8::from(current);
    };
    let len = match item.0 {
        [.., 0, 0] => {
            let mut bytes = item.0;
            of_this_reply(&mut bytes);
            return write(reply, ITEM_INT, &bytes);
        }
        [.., 0] => ITEM_BYTES - 1,
        _ => ITEM_BYTES,
    };
    copy(&item.0[..len], reply);
    of_this_reply(reply);
    Served { outcome: outcome::REPLY, id: ITEM_INT, len }
}
