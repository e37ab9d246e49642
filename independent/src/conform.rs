//! Checks that the leaves fit together, by weights alone.

use crate::mesh::{edges, face_counts, half_sum, Coarse, Layout, Weights, LEAF};
use std::collections::{HashMap, HashSet};

/// Err says what does not fit.
pub fn conform(coarse: &Coarse, layout: &Layout) -> Result<(), String> {
    let corners: HashSet<&Weights> = layout.corners.iter().collect();
    if corners.len() != layout.corners.len() {
        return Err("two corners with equal weights".into());
    }
    if layout.corners.iter().any(|w| w.iter().map(|&(_, n)| n as usize).sum::<usize>() != 1024) {
        return Err("weights that do not add to 1,024".into());
    }
    let boundary: Vec<[u16; 3]> = face_counts(&coarse.cells)
        .into_iter()
        .filter(|&(_, n)| n == 1)
        .map(|(face, _)| face)
        .collect();

    let mut leaves_of_face: HashMap<Vec<&Weights>, usize> = HashMap::new();
    for (i, leaf) in layout.cells.iter().enumerate().filter(|(_, c)| c.status == LEAF) {
        for (a, b) in edges(leaf) {
            let middle = half_sum(&layout.corners[a], &layout.corners[b]);
            if middle.map_or(false, |m| corners.contains(&m)) {
                return Err(format!("leaf {i} has a corner in the middle of edge {a} {b}"));
            }
        }
        for left_out in 0..4 {
            let mut face: Vec<&Weights> = (0..4)
                .filter(|&k| k != left_out)
                .map(|k| &layout.corners[leaf.corners[k]])
                .collect();
            face.sort();
            *leaves_of_face.entry(face).or_insert(0) += 1;
        }
    }
    for (face, leaves) in leaves_of_face {
        let weighted: HashSet<u16> = face.iter().copied().flatten().map(|&(corner, _)| corner).collect();
        let on_boundary = weighted.len() <= 3
            && boundary.iter().any(|b| weighted.iter().all(|corner| b.contains(corner)));
        if leaves != if on_boundary { 1 } else { 2 } {
            return Err(format!("face {face:?} in {leaves} leaves, on the boundary: {on_boundary}"));
        }
    }
    Ok(())
}
