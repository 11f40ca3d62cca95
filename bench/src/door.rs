//! The proved library behind its C interface, crates/door/vapourtrack.h: a safe function for each of the five.

extern "C" {
    fn vt_fresh(table: *const u8, table_length: usize, room: *mut u8, room_length: usize) -> u64;
    fn vt_judge(
        table: *const u8,
        table_length: usize,
        state: *const u8,
        state_length: usize,
        kind: u8,
        head: u8,
        room: *mut u8,
        room_length: usize,
    ) -> u64;
    fn vt_list(
        table: *const u8,
        table_length: usize,
        state: *const u8,
        state_length: usize,
        room: *mut u8,
        room_length: usize,
    ) -> u64;
    fn vt_given(
        table: *const u8,
        table_length: usize,
        state: *const u8,
        state_length: usize,
        pairs: *const u8,
        pairs_length: usize,
        room: *mut u8,
        room_length: usize,
    ) -> u64;
    fn vt_policy(
        table: *const u8,
        table_length: usize,
        state: *const u8,
        state_length: usize,
        count: usize,
        room: *mut u8,
        room_length: usize,
    ) -> u64;
}

// Safe, all five: a slice's pointer is not null and good for its length, a room lent by &mut overlaps nothing
// else, and the library keeps no pointer.

pub fn fresh(table: &[u8], room: &mut [u8]) -> u64 {
    unsafe { vt_fresh(table.as_ptr(), table.len(), room.as_mut_ptr(), room.len()) }
}

pub fn judge(table: &[u8], state: &[u8], kind: u8, head: u8, room: &mut [u8]) -> u64 {
    let (to, to_length) = (room.as_mut_ptr(), room.len());
    unsafe { vt_judge(table.as_ptr(), table.len(), state.as_ptr(), state.len(), kind, head, to, to_length) }
}

pub fn list(table: &[u8], state: &[u8], room: &mut [u8]) -> u64 {
    let (to, to_length) = (room.as_mut_ptr(), room.len());
    unsafe { vt_list(table.as_ptr(), table.len(), state.as_ptr(), state.len(), to, to_length) }
}

pub fn given(table: &[u8], state: &[u8], pairs: &[u8], room: &mut [u8]) -> u64 {
    let (from, from_length) = (pairs.as_ptr(), pairs.len());
    let (to, to_length) = (room.as_mut_ptr(), room.len());
    unsafe {
        vt_given(table.as_ptr(), table.len(), state.as_ptr(), state.len(), from, from_length, to, to_length)
    }
}

pub fn policy(table: &[u8], state: &[u8], count: usize, room: &mut [u8]) -> u64 {
    let (to, to_length) = (room.as_mut_ptr(), room.len());
    unsafe { vt_policy(table.as_ptr(), table.len(), state.as_ptr(), state.len(), count, to, to_length) }
}
