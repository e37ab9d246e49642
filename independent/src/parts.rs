//! Split jobs: owners before a step and after it, and the masters and ghosts that they make. The messages between parts are not here.

use crate::mesh::{children, Layout, LEAF};
use crate::random::Random;
use crate::Refusal;
use std::collections::HashMap;

pub const MOST_PARTS: usize = 16;

/// A cell's name before and after a step: its coarse cell, then the child numbers down to it.
pub type Path = Vec<u8>;

/// What a part holds of a cell.
#[derive(Clone, Debug, PartialEq, Eq, PartialOrd, Ord)]
pub struct Held {
    pub path: Path,
    pub ghost: bool,
    pub status: u8,
}

/// Refusals 10 and 11. Owners are from 1.
pub fn examine_owners(layout: &Layout, parts: usize, owners: &[u8]) -> Result<(), Refusal> {
    if !(1..=MOST_PARTS).contains(&parts) {
        return Err(10);
    }
    let in_range = |&p: &u8| 1 <= p && p as usize <= parts;
    if owners.len() != layout.cells.len() || !owners.iter().all(in_range) {
        return Err(11);
    }
    let one_owner = |family: &Vec<usize>| family.iter().all(|&k| owners[k] == owners[family[0]]);
    if children(layout).iter().all(one_owner) {
        Ok(())
    } else {
        Err(11)
    }
}

pub fn paths(layout: &Layout) -> Vec<Path> {
    let mut paths: Vec<Path> = Vec::new();
    for (i, cell) in layout.cells.iter().enumerate() {
        paths.push(match cell.parent {
            None => vec![i as u8],
            Some(parent) => [&paths[parent][..], &[cell.child]].concat(),
        });
    }
    paths
}

/// The owner of each cell's family; None of a leaf.
pub fn family_owners(layout: &Layout, owners: &[u8]) -> Vec<Option<u8>> {
    children(layout).iter().map(|family| family.first().map(|&k| owners[k])).collect()
}

/// The owners after a step from one layout to another: a coarse cell keeps its owner; a cell's family has the owner of the same cell's old family, if
/// there was one, else the cell's new owner.
pub fn owners_after(old: &Layout, owners: &[u8], new: &Layout) -> Vec<u8> {
    let old_families: HashMap<Path, Option<u8>> = paths(old).into_iter().zip(family_owners(old, owners)).collect();
    let new_paths = paths(new);
    let mut after: Vec<u8> = Vec::new();
    for (i, cell) in new.cells.iter().enumerate() {
        after.push(match cell.parent {
            None => owners[i],
            Some(parent) => old_families.get(&new_paths[parent]).copied().flatten().unwrap_or(after[parent]),
        });
    }
    after
}

/// The masters and ghosts of a part, in cell order: a cell is master with its owner, and ghost with its family's owner if that is another.
pub fn held(layout: &Layout, owners: &[u8], part: u8) -> Vec<Held> {
    let (paths, families) = (paths(layout), family_owners(layout, owners));
    let mut held = Vec::new();
    for (i, cell) in layout.cells.iter().enumerate() {
        let master = owners[i] == part;
        if master || families[i] == Some(part) {
            held.push(Held { path: paths[i].clone(), ghost: !master, status: cell.status });
        }
    }
    held
}

/// The marks of a part's start: one for each master, in cell order.
pub fn marks_of(owners: &[u8], marks: &[u8], part: u8) -> Vec<u8> {
    owners.iter().zip(marks).filter(|(&p, _)| p == part).map(|(_, &m)| m).collect()
}

/// The most calls that move an exchange on, from the cells of the split table and the parts alone (docs/PARTS.md).
pub fn calls_most(cells: usize, parts: usize) -> usize {
    24 * parts + 2 * parts * (parts - 1) * (7 * cells + 24)
}

// -------------------------------------------------------------------- owners at random

/// Owners that fit, and what they are like.
pub fn owners(r: &mut Random, layout: &Layout, parts: usize) -> (&'static str, Vec<u8>) {
    let any = |r: &mut Random| 1 + r.below(parts) as u8;
    // Some parts may stay empty.
    let some: Vec<u8> = (0..1 + r.below(3)).map(|_| any(r)).collect();
    let style = r.below(8);
    let rarely = *r.pick(&[2, 4, 12]);
    let one = any(r);
    let first: Vec<u8> = (0..layout.cells.len()).map(|_| any(r)).collect();
    let mut owners: Vec<u8> = Vec::new();
    for (i, cell) in layout.cells.iter().enumerate() {
        // Children have the owner of their first brother.
        let brother = if cell.parent.is_some() && cell.child > 0 { Some(owners[i - 1]) } else { None };
        let parent = cell.parent.map(|p| owners[p]);
        let owner = brother.unwrap_or_else(|| match style {
            0 => parent.unwrap_or(first[i]),
            1 | 2 => first[i],
            3 | 4 => parent.filter(|_| !r.once_in(rarely)).unwrap_or(first[i]),
            5 => *r.pick(&some),
            6 => one,
            _ => 1 + cell.level % parts as u8,
        });
        owners.push(owner);
    }
    let name = ["by coarse cell", "at random", "at random", "mostly with the parent", "mostly with the parent", "some parts empty", "all on one", "by level"];
    (name[style], owners)
}

/// Part count and owners with a fault: mostly 10 or 11.
pub fn damaged_owners(r: &mut Random, layout: &Layout, parts: usize, owners: &[u8]) -> (usize, Vec<u8>) {
    let mut owners = owners.to_vec();
    let at = r.below(owners.len());
    match r.below(8) {
        0 => return (0, owners),
        1 => return (17, owners),
        2 => return (*r.pick(&[18, 255, 256, 257, 272, 65_537, usize::MAX]), owners),
        3 => owners[at] = 0,
        4 => owners[at] = *r.pick(&[parts as u8 + 1, 17, 255]),
        5 => owners.truncate(at),
        6 => owners.push(1),
        _ => {
            // Two in a family.
            let inner: Vec<usize> = (0..owners.len()).filter(|&i| layout.cells[i].parent.is_some()).collect();
            if !inner.is_empty() {
                let at = *r.pick(&inner);
                owners[at] = 1 + (owners[at] % parts as u8);
            }
        }
    }
    (parts, owners)
}

/// A part's marks with a fault, all refused with 7 but where a leaf of the part is hit.
pub fn damaged_marks_of(r: &mut Random, layout: &Layout, owners: &[u8], marks: &[u8], part: u8) -> Vec<u8> {
    let mut of_part = marks_of(owners, marks, part);
    if of_part.is_empty() || r.once_in(4) {
        of_part.push(0);
        return of_part;
    }
    let at = r.below(of_part.len());
    let refined: Vec<usize> = (0..owners.len()).filter(|&i| owners[i] == part && layout.cells[i].status != LEAF).collect();
    match r.below(3) {
        0 => of_part[at] = 3 + r.below(253) as u8,
        1 => of_part.truncate(at),
        _ if !refined.is_empty() => {
            let cell = *r.pick(&refined);
            let at = (0..cell).filter(|&i| owners[i] == part).count();
            of_part[at] = 1 + r.below(2) as u8;
        }
        _ => of_part[at] = 255,
    }
    of_part
}

/// Refusal 7 of a start.
pub fn marks_fit_part(layout: &Layout, owners: &[u8], marks: &[u8], part: u8) -> bool {
    let masters: Vec<usize> = (0..owners.len()).filter(|&i| owners[i] == part).collect();
    marks.len() == masters.len()
        && masters.iter().zip(marks).all(|(&i, &m)| m <= 2 && (m == 0 || layout.cells[i].status == LEAF))
}
