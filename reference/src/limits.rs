//! Sizes and limits of the service, each named once.

/// Kinds of plan; a kind is an index into arrays of this length.
pub const KINDS: usize = 3;
pub const FLIGHT: usize = 0;
pub const FENCE: usize = 1;
pub const RALLY: usize = 2;
/// The kind in CLEAR_ALL that covers all three.
pub const ALL_KINDS: u8 = 255;

/// Most items of a plan, by kind.
pub const PLAN_SIZE: [u16; KINDS] = [256, 64, 32];
/// First item place of each kind in a half of the store.
pub const FIRST_PLACE: [usize; KINDS] = [0, 256, 320];
/// Item places in a half of the store.
pub const HALF_PLACES: usize = 352;
/// Words of a stored item.
pub const ITEM_WORDS: usize = 8;
/// Words of the store.
pub const STORE_WORDS: usize = 2 * HALF_PLACES * ITEM_WORDS;
/// Bytes of an item in its message, and in the store of bytes.
pub const ITEM_BYTES: usize = 38;
/// Bytes of the store of bytes, from which plans are moved (request M-106).
pub const OLD_STORE_BYTES: usize = 2 * HALF_PLACES * ITEM_BYTES;
/// Bytes of the reply buffer; the longest message has as many.
pub const REPLY_BYTES: usize = 54;

/// Jump items in a flight plan.
pub const MAX_JUMPS: usize = 15;
/// Largest count of a jump's runs.
pub const MAX_JUMP_COUNT: u16 = 32767;
/// Jumps followed in one search.
pub const MAX_FOLLOWED: u32 = 64;

/// Repeated requests before an upload is given up.
pub const MAX_REPEATS: u8 = 5;
/// Milliseconds after which a request is repeated.
pub const EXPIRY_MS: u32 = 250;
/// Elapsed times from here on are read as a clock that went back.
pub const BACKWARD_MS: u32 = 1 << 31;

/// Largest x and y, in degrees x 10^7, either way from 0.
pub const MAX_X: i64 = 900_000_000;
pub const MAX_Y: i64 = 1_800_000_000;
