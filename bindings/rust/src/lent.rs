//! The library's functions as they are: each answers 0 or a refusal's number, and fills the tables and numbers that it is lent. Any lengths may be lent;
//! what is behind a `&mut` overlaps nothing, and no reference is null, so these are safe.

extern "C" {
    fn yd_cut(pattern: u8, digits: *mut u8, digits_length: usize, count: &mut usize) -> u8;
    fn yd_examine_mesh(positions: *const i32, positions_length: usize, cells: *const u16, cells_length: usize) -> u8;
    fn yd_examine_table(
        positions: *const i32, positions_length: usize, cells: *const u16, cells_length: usize, status: *const u8, status_length: usize,
    ) -> u8;
    fn yd_lay_out(
        positions: *const i32, positions_length: usize, cells: *const u16, cells_length: usize, status: *const u8, status_length: usize,
        table: *mut u16, table_length: usize, ends: *mut u16, ends_length: usize, sums: *mut i32, sums_length: usize, cell_count: &mut usize,
        corner_count: &mut usize, level_count: &mut usize,
    ) -> u8;
    fn yd_position(sums: *const i32, sums_length: usize, corners: usize, corner: usize, x: &mut f64, y: &mut f64, z: &mut f64) -> u8;
    fn yd_ancestor(
        positions: *const i32, positions_length: usize, cells: *const u16, cells_length: usize, status: *const u8, status_length: usize, cell: usize,
        coarse: &mut usize, level: &mut usize,
    ) -> u8;
    fn yd_counts(
        positions: *const i32, positions_length: usize, cells: *const u16, cells_length: usize, status: *const u8, status_length: usize,
        counts: *mut u16, counts_length: usize, level_count: &mut usize,
    ) -> u8;
    fn yd_step(
        positions: *const i32, positions_length: usize, cells: *const u16, cells_length: usize, status: *const u8, status_length: usize,
        marks: *const u8, marks_length: usize, table: *mut u8, table_length: usize, cell_count: &mut usize,
    ) -> u8;
    fn yd_read(
        bytes: *const u8, bytes_length: usize, positions: *mut i32, positions_length: usize, cells: *mut u16, cells_length: usize, marked: *mut u16,
        marked_length: usize, marks: *mut u8, marks_length: usize, step_ends: *mut u16, step_ends_length: usize, corner_count: &mut usize,
        cell_count: &mut usize, mark_count: &mut usize, step_count: &mut usize,
    ) -> u8;
    fn yd_write(
        positions: *const i32, positions_length: usize, cells: *const u16, cells_length: usize, marked: *const u16, marked_length: usize,
        marks: *const u8, marks_length: usize, step_ends: *const u16, step_ends_length: usize, bytes: *mut u8, bytes_length: usize,
        byte_count: &mut usize,
    ) -> u8;
    fn yd_replay(
        bytes: *const u8, bytes_length: usize, table: *mut u8, table_length: usize, counts: *mut u16, counts_length: usize, cell_count: &mut usize,
        level_count: &mut usize,
    ) -> u8;
    fn yd_split(
        positions: *const i32, positions_length: usize, cells: *const u16, cells_length: usize, status: *const u8, status_length: usize, parts: usize,
        owners: *const u8, owners_length: usize, stores: *mut u16, stores_length: usize,
    ) -> u8;
    fn yd_start(store: *mut u16, store_length: usize, marks: *const u8, marks_length: usize) -> u8;
    fn yd_part_step(store: *mut u16, store_length: usize) -> u8;
    fn yd_fetch(store: *mut u16, store_length: usize, bytes: *mut u8, bytes_length: usize, byte_count: &mut usize) -> u8;
    fn yd_hand_over(store: *mut u16, store_length: usize, bytes: *const u8, bytes_length: usize) -> u8;
    fn yd_stage(store: *const u16, store_length: usize, stage: &mut usize, round: &mut usize, result: &mut usize) -> u8;
    fn yd_held(store: *const u16, store_length: usize, rows: *mut u16, rows_length: usize, row_count: &mut usize) -> u8;
    fn yd_merge(stores: *const u16, stores_length: usize, table: *mut u8, table_length: usize, cell_count: &mut usize) -> u8;
}

/// The children of a cell by its pattern.
pub fn cut(pattern: u8, digits: &mut [u8], count: &mut usize) -> u8 {
    unsafe { yd_cut(pattern, digits.as_mut_ptr(), digits.len(), count) }
}

/// Whether a coarse mesh is accepted.
pub fn examine_mesh(positions: &[i32], cells: &[u16]) -> u8 {
    unsafe { yd_examine_mesh(positions.as_ptr(), positions.len(), cells.as_ptr(), cells.len()) }
}

/// Whether a status table is accepted.
pub fn examine_table(positions: &[i32], cells: &[u16], status: &[u8]) -> u8 {
    unsafe { yd_examine_table(positions.as_ptr(), positions.len(), cells.as_ptr(), cells.len(), status.as_ptr(), status.len()) }
}

/// Lays a table out.
#[allow(clippy::too_many_arguments)]
pub fn lay_out(
    positions: &[i32], cells: &[u16], status: &[u8], table: &mut [u16], ends: &mut [u16], sums: &mut [i32], cell_count: &mut usize,
    corner_count: &mut usize, level_count: &mut usize,
) -> u8 {
    unsafe { yd_lay_out(
        positions.as_ptr(), positions.len(), cells.as_ptr(), cells.len(), status.as_ptr(), status.len(), table.as_mut_ptr(), table.len(),
        ends.as_mut_ptr(), ends.len(), sums.as_mut_ptr(), sums.len(), cell_count, corner_count, level_count,
    ) }
}

/// The position of a corner.
pub fn position(sums: &[i32], corners: usize, corner: usize, x: &mut f64, y: &mut f64, z: &mut f64) -> u8 {
    unsafe { yd_position(sums.as_ptr(), sums.len(), corners, corner, x, y, z) }
}

/// A cell's coarse ancestor, and the number of turns from parent to parent, which is the cell's level.
pub fn ancestor(positions: &[i32], cells: &[u16], status: &[u8], cell: usize, coarse: &mut usize, level: &mut usize) -> u8 {
    unsafe { yd_ancestor(positions.as_ptr(), positions.len(), cells.as_ptr(), cells.len(), status.as_ptr(), status.len(), cell, coarse, level) }
}

/// The counts of every level.
pub fn counts(positions: &[i32], cells: &[u16], status: &[u8], counts: &mut [u16], level_count: &mut usize) -> u8 {
    unsafe { yd_counts(
        positions.as_ptr(), positions.len(), cells.as_ptr(), cells.len(), status.as_ptr(), status.len(), counts.as_mut_ptr(), counts.len(),
        level_count,
    ) }
}

/// One step.
pub fn step(positions: &[i32], cells: &[u16], status: &[u8], marks: &[u8], table: &mut [u8], cell_count: &mut usize) -> u8 {
    unsafe { yd_step(
        positions.as_ptr(), positions.len(), cells.as_ptr(), cells.len(), status.as_ptr(), status.len(), marks.as_ptr(), marks.len(),
        table.as_mut_ptr(), table.len(), cell_count,
    ) }
}

/// The job of an archive.
#[allow(clippy::too_many_arguments)]
pub fn read(
    bytes: &[u8], positions: &mut [i32], cells: &mut [u16], marked: &mut [u16], marks: &mut [u8], step_ends: &mut [u16], corner_count: &mut usize,
    cell_count: &mut usize, mark_count: &mut usize, step_count: &mut usize,
) -> u8 {
    unsafe { yd_read(
        bytes.as_ptr(), bytes.len(), positions.as_mut_ptr(), positions.len(), cells.as_mut_ptr(), cells.len(), marked.as_mut_ptr(), marked.len(),
        marks.as_mut_ptr(), marks.len(), step_ends.as_mut_ptr(), step_ends.len(), corner_count, cell_count, mark_count, step_count,
    ) }
}

/// The archive of a job.
pub fn write(positions: &[i32], cells: &[u16], marked: &[u16], marks: &[u8], step_ends: &[u16], bytes: &mut [u8], byte_count: &mut usize) -> u8 {
    unsafe { yd_write(
        positions.as_ptr(), positions.len(), cells.as_ptr(), cells.len(), marked.as_ptr(), marked.len(), marks.as_ptr(), marks.len(),
        step_ends.as_ptr(), step_ends.len(), bytes.as_mut_ptr(), bytes.len(), byte_count,
    ) }
}

/// An archive's steps done again.
pub fn replay(bytes: &[u8], table: &mut [u8], counts: &mut [u16], cell_count: &mut usize, level_count: &mut usize) -> u8 {
    unsafe { yd_replay(bytes.as_ptr(), bytes.len(), table.as_mut_ptr(), table.len(), counts.as_mut_ptr(), counts.len(), cell_count, level_count) }
}

/// Splits a table over parts.
pub fn split(positions: &[i32], cells: &[u16], status: &[u8], parts: usize, owners: &[u8], stores: &mut [u16]) -> u8 {
    unsafe { yd_split(
        positions.as_ptr(), positions.len(), cells.as_ptr(), cells.len(), status.as_ptr(), status.len(), parts, owners.as_ptr(), owners.len(),
        stores.as_mut_ptr(), stores.len(),
    ) }
}

/// Starts a part.
pub fn start(store: &mut [u16], marks: &[u8]) -> u8 {
    unsafe { yd_start(store.as_mut_ptr(), store.len(), marks.as_ptr(), marks.len()) }
}

/// Leads a part to its next round.
pub fn part_step(store: &mut [u16]) -> u8 {
    unsafe { yd_part_step(store.as_mut_ptr(), store.len()) }
}

/// The next message that a part has written; its length is 0 where there is none to send.
pub fn fetch(store: &mut [u16], bytes: &mut [u8], byte_count: &mut usize) -> u8 {
    unsafe { yd_fetch(store.as_mut_ptr(), store.len(), bytes.as_mut_ptr(), bytes.len(), byte_count) }
}

/// Hands a message over to a part.
pub fn hand_over(store: &mut [u16], bytes: &[u8]) -> u8 {
    unsafe { yd_hand_over(store.as_mut_ptr(), store.len(), bytes.as_ptr(), bytes.len()) }
}

/// How far a part is.
pub fn stage(store: &[u16], stage: &mut usize, round: &mut usize, result: &mut usize) -> u8 {
    unsafe { yd_stage(store.as_ptr(), store.len(), stage, round, result) }
}

/// The masters and ghosts of a part that is done.
pub fn held(store: &[u16], rows: &mut [u16], row_count: &mut usize) -> u8 {
    unsafe { yd_held(store.as_ptr(), store.len(), rows.as_mut_ptr(), rows.len(), row_count) }
}

/// The table that all parts make.
pub fn merge(stores: &[u16], table: &mut [u8], cell_count: &mut usize) -> u8 {
    unsafe { yd_merge(stores.as_ptr(), stores.len(), table.as_mut_ptr(), table.len(), cell_count) }
}
