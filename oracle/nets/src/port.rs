//! The port's calls, those of `oracle/nets/calls`, in the module that they are lowered to without a proof: a slice is passed by its
//! pointer and its length.

mod c {
    unsafe extern "C" {
        pub fn kev_write(
            table: *const u8,
            table_len: usize,
            party: u64,
            number: u64,
            key: *const u8,
            key_len: usize,
            value: *const u8,
            value_len: usize,
            wanted: u64,
            time: u64,
        ) -> u64;
        pub fn kev_delete(
            table: *const u8,
            table_len: usize,
            party: u64,
            number: u64,
            key: *const u8,
            key_len: usize,
            time: u64,
        ) -> u64;
        pub fn kev_remove(table: *const u8, table_len: usize, time: u64, grace: u64) -> u64;
        pub fn kev_write_digest(
            table: *const u8,
            table_len: usize,
            excluded: *const u64,
            excluded_len: usize,
            datagram: *const u8,
            datagram_len: usize,
            place: usize,
        ) -> usize;
        pub fn kev_compute(
            table: *const u8,
            table_len: usize,
            digest: *const u8,
            digest_len: usize,
            mtu: usize,
            excluded: *const u64,
            excluded_len: usize,
            ties: *const u64,
            ties_len: usize,
            datagram: *const u8,
            datagram_len: usize,
            place: usize,
        ) -> usize;
        pub fn kev_apply(
            table: *const u8,
            table_len: usize,
            delta: *const u8,
            delta_len: usize,
            clock: u64,
            answers: *const u8,
            answers_len: usize,
        ) -> usize;
        pub fn kev_new_grid(grid: *const u8, grid_len: usize, table: *const u8, table_len: usize) -> u64;
        pub fn kev_grid_add(grid: *const u8, grid_len: usize, table: *const u8, table_len: usize, number: u64) -> u64;
        pub fn kev_grid_drop(grid: *const u8, grid_len: usize, table: *const u8, table_len: usize, number: u64) -> u64;
        pub fn kev_tell(grid: *const u8, grid_len: usize, peer: u64, digest: *const u8, digest_len: usize) -> u64;
        pub fn kev_take_out(grid: *const u8, grid_len: usize, peer: u64) -> u64;
        pub fn kev_remove_carefully(
            grid: *const u8,
            grid_len: usize,
            table: *const u8,
            table_len: usize,
            clock: u64,
            grace: u64,
        ) -> u64;
    }
}

/// By a party, under the wanted status. 0 where it was done, else the number of the refusal.
pub fn write(table: &mut [u8], party: u64, number: u64, key: &[u8], value: &[u8], wanted: u64, time: u64) -> u64 {
    unsafe {
        c::kev_write(
            table.as_mut_ptr(),
            table.len(),
            party,
            number,
            key.as_ptr(),
            key.len(),
            value.as_ptr(),
            value.len(),
            wanted,
            time,
        )
    }
}

pub fn delete(table: &mut [u8], party: u64, number: u64, key: &[u8], time: u64) -> u64 {
    unsafe { c::kev_delete(table.as_mut_ptr(), table.len(), party, number, key.as_ptr(), key.len(), time) }
}

pub fn remove(table: &mut [u8], time: u64, grace: u64) -> u64 {
    unsafe { c::kev_remove(table.as_mut_ptr(), table.len(), time, grace) }
}

/// The digest's bytes.
pub fn digest(table: &[u8], excluded: &[u64]) -> Vec<u8> {
    let mut datagram = vec![0; 300];
    let len = unsafe {
        c::kev_write_digest(
            table.as_ptr(),
            table.len(),
            excluded.as_ptr(),
            excluded.len(),
            datagram.as_mut_ptr(),
            datagram.len(),
            0,
        )
    };
    datagram.truncate(len);
    datagram
}

/// The delta's bytes.
pub fn compute(table: &[u8], digest: &[u8], mtu: usize, excluded: &[u64], ties: &[u64]) -> Vec<u8> {
    let mut datagram = vec![0; mtu];
    let len = unsafe {
        c::kev_compute(
            table.as_ptr(),
            table.len(),
            digest.as_ptr(),
            digest.len(),
            mtu,
            excluded.as_ptr(),
            excluded.len(),
            ties.as_ptr(),
            ties.len(),
            datagram.as_mut_ptr(),
            datagram.len(),
            0,
        )
    };
    datagram.truncate(len);
    datagram
}

/// The answers, one for each node of the delta, or the number of the refusal.
pub fn apply(table: &mut [u8], delta: &[u8], clock: u64) -> Result<Vec<u8>, u64> {
    let mut answers = vec![0xEE; 8];
    let nodes = unsafe {
        c::kev_apply(
            table.as_mut_ptr(),
            table.len(),
            delta.as_ptr(),
            delta.len(),
            clock,
            answers.as_mut_ptr(),
            answers.len(),
        )
    };
    if nodes >= 256 {
        return Err(nodes as u64 - 256);
    }
    answers.truncate(nodes);
    Ok(answers)
}

/// The grid of a table: nobody is present.
pub fn grid(table: &[u8]) -> Vec<u8> {
    let mut grid = vec![0; script::grid::GRID_BYTES];
    assert_eq!(unsafe { c::kev_new_grid(grid.as_mut_ptr(), grid.len(), table.as_ptr(), table.len()) }, 0);
    grid
}

/// A node removed and added again through the grid. 0 where it was done.
pub fn renew(grid: &mut [u8], table: &mut [u8], number: u64) -> u64 {
    unsafe {
        c::kev_grid_drop(grid.as_mut_ptr(), grid.len(), table.as_mut_ptr(), table.len(), number)
            | c::kev_grid_add(grid.as_mut_ptr(), grid.len(), table.as_mut_ptr(), table.len(), number)
    }
}

pub fn tell(grid: &mut [u8], peer: u64, digest: &[u8]) -> u64 {
    unsafe { c::kev_tell(grid.as_mut_ptr(), grid.len(), peer, digest.as_ptr(), digest.len()) }
}

pub fn take_out(grid: &mut [u8], peer: u64) -> u64 {
    unsafe { c::kev_take_out(grid.as_mut_ptr(), grid.len(), peer) }
}

pub fn remove_carefully(grid: &[u8], table: &mut [u8], clock: u64, grace: u64) -> u64 {
    unsafe { c::kev_remove_carefully(grid.as_ptr(), grid.len(), table.as_mut_ptr(), table.len(), clock, grace) }
}
