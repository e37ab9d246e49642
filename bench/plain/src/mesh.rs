//! Examining a coarse mesh.

use crate::families::determinant;
use crate::table::Table;
use crate::Refusal;

pub const FAR: i32 = 500_000;

/// What is known of a face: how many cells have it, and the first one's corner across from it.
#[derive(Clone, Copy, Default)]
pub struct Face {
    cells: u16,
    across: u16,
}

/// Refusals 1 to 5, each over the whole mesh before the next.
pub fn examine(positions: &[i32], cells: &[u16], faces: &mut Table<Face>) -> Result<(), Refusal> {
    let (corner_count, cell_count) = (positions.len() / 3, cells.len() / 4);
    if positions.len() % 3 != 0
        || cells.len() % 4 != 0
        || !(4..=512).contains(&corner_count)
        || !(1..=256).contains(&cell_count)
    {
        return Err(1);
    }
    if positions.iter().any(|x| !(-FAR..=FAR).contains(x)) {
        return Err(2);
    }
    let fours = || cells.chunks_exact(4).map(|c| [c[0], c[1], c[2], c[3]]);
    if !fours().all(|[a, b, c, d]| a < b && b < c && c < d && (d as usize) < corner_count) {
        return Err(3);
    }
    if fours().any(|cell| is_flat(positions, cell)) {
        return Err(4);
    }
    faces.clear(4 * cell_count);
    if fours().all(|cell| take_faces(faces, cell)) {
        Ok(())
    } else {
        Err(5)
    }
}

fn is_flat(positions: &[i32], cell: [u16; 4]) -> bool {
    let at = |k: usize| {
        let i = 3 * cell[k] as usize;
        [positions[i] as i64, positions[i + 1] as i64, positions[i + 2] as i64]
    };
    let origin = at(0);
    // At most a million each, so that the determinant is below 2^63.
    let edge = |k: usize| {
        let p = at(k);
        [p[0] - origin[0], p[1] - origin[1], p[2] - origin[2]]
    };
    determinant(edge(1), edge(2), edge(3)) == 0
}

/// False for a third cell at a face, or where the cell is there already: it then meets the old one at a face, with the same
/// corner across.
fn take_faces(faces: &mut Table<Face>, [a, b, c, d]: [u16; 4]) -> bool {
    [(b, c, d, a), (a, c, d, b), (a, b, d, c), (a, b, c, d)].into_iter().all(|(p, q, r, across)| {
        // Corner numbers are below 512.
        let slot = faces.enter((p as u32) << 18 | (q as u32) << 9 | r as u32);
        let face = faces.value(slot);
        face.cells += 1;
        match face.cells {
            1 => {
                face.across = across;
                true
            }
            2 => face.across != across,
            _ => false,
        }
    })
}
