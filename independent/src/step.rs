//! One serial step.

use crate::mesh::{
    children, close, edges, examine_table, green, grow, inner_edges, table, Coarse, Edge, Layout,
    LEAF, MOST_CELLS, RED, TOP_LEVEL,
};
use crate::Refusal;
use std::collections::HashSet;

pub const REFINE: u8 = 1;
pub const DELETE: u8 = 2;

/// The table after one step. Refusals 6, 7, 8, 9, in this order.
pub fn step(coarse: &Coarse, status: &[u8], marks: &[u8]) -> Result<Vec<u8>, Refusal> {
    let old = examine_table(coarse, status)?;
    if !marks_fit(&old, marks) {
        return Err(7);
    }
    let new = step_without_count(coarse, &old, marks)?;
    if new.cells.len() > MOST_CELLS {
        return Err(9);
    }
    Ok(table(&new))
}

pub fn marks_fit(old: &Layout, marks: &[u8]) -> bool {
    marks.len() == old.cells.len()
        && old.cells.iter().zip(marks).all(|(c, &m)| m <= DELETE && (m == 0 || c.status == LEAF))
}

/// The layout after one step, however many cells it has; refusal 8 alone.
pub fn step_without_count(coarse: &Coarse, old: &Layout, marks: &[u8]) -> Result<Layout, Refusal> {
    let red = new_red(old, marks);
    let old_children = children(old);
    // For each new cell the old one that it is, if any.
    let mut same: Vec<Option<usize>> = Vec::new();
    grow(coarse, |cells, level| {
        for i in level.clone() {
            same.push(match cells[i].parent {
                None => Some(i),
                Some(parent) => match same[parent] {
                    Some(o) if cells[parent].status == RED && old.cells[o].status == RED => {
                        Some(old_children[o][cells[i].child as usize])
                    }
                    _ => None,
                },
            });
        }
        let top = cells[level.start].level == TOP_LEVEL;
        let statuses = close(cells, level, |i| same[i].map_or(false, |o| red[o]));
        if top && statuses.iter().any(|&s| s != LEAF) {
            return Err(8);
        }
        Ok(statuses)
    })
}

/// Which old cells are red after the step.
pub fn new_red(old: &Layout, marks: &[u8]) -> Vec<bool> {
    let children = children(old);
    let mut red = vec![false; old.cells.len()];
    // The edges of the new red cells one level up.
    let mut up: HashSet<Edge> = HashSet::new();
    for level in (0..old.levels).rev() {
        let mut here: HashSet<Edge> = HashSet::new();
        for (i, cell) in old.cells.iter().enumerate().filter(|(_, c)| c.level as usize == level) {
            let family = &children[i];
            red[i] = if cell.status == RED {
                let all_deleted = family.iter().all(|&k| old.cells[k].status == LEAF && marks[k] == DELETE);
                let held = family.iter().flat_map(|&k| edges(&old.cells[k])).any(|e| up.contains(&e));
                !(all_deleted && !held)
            } else if green(cell) {
                family.iter().any(|&k| marks[k] == REFINE)
                    || !inner_edges(old, i, family).is_disjoint(&up)
            } else {
                cell.regular && marks[i] == REFINE
            };
            if red[i] {
                here.extend(edges(cell));
            }
        }
        up = here;
    }
    red
}
