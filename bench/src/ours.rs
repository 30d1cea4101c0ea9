//! The proved library's functions, over slices.

extern "C" {
    fn douzanelh_trimmed_length(bytes: *const u8, length: usize) -> usize;
    fn douzanelh_trim_statustext(
        bytes: *const u8,
        length: usize,
        out: *mut u8,
        room: usize,
    ) -> usize;
    fn douzanelh_write_statustext(
        severity: u8,
        text: *const u8,
        length: usize,
        id: u16,
        chunk: u8,
        out: *mut u8,
        room: usize,
    ) -> usize;
    fn douzanelh_replay(
        calls: *const u8,
        length: usize,
        store: *mut u32,
        store_length: usize,
        told: *mut u8,
        room: usize,
    ) -> u64;
}

#[inline]
pub fn length(bytes: &[u8]) -> usize {
    unsafe { douzanelh_trimmed_length(bytes.as_ptr(), bytes.len()) }
}

#[inline]
pub fn trim(bytes: &[u8], out: &mut [u8]) -> usize {
    unsafe { douzanelh_trim_statustext(bytes.as_ptr(), bytes.len(), out.as_mut_ptr(), out.len()) }
}

#[inline]
pub fn write(severity: u8, text: &[u8], id: u16, chunk: u8, out: &mut [u8]) -> usize {
    let (at, length) = (text.as_ptr(), text.len());
    unsafe {
        douzanelh_write_statustext(severity, at, length, id, chunk, out.as_mut_ptr(), out.len())
    }
}

/// Plays the calls of a list from a fresh start over a store, tells what they return as far as there is room, and answers the sum of it.
pub fn replay(calls: &[u8], store: &mut [u32], told: &mut [u8]) -> u64 {
    let (store, store_length) = (store.as_mut_ptr(), store.len());
    let (told, room) = (told.as_mut_ptr(), told.len());
    unsafe { douzanelh_replay(calls.as_ptr(), calls.len(), store, store_length, told, room) }
}
