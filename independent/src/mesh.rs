//! The coarse mesh, status tables and the layout of a table's cells.

use crate::cutting::{family, CORNER_DIGIT, EDGES, MIDPOINT_DIGIT};
use crate::Refusal;
use std::collections::{BTreeMap, HashMap, HashSet};
use std::ops::Range;

pub const LEAF: u8 = 0;
pub const RED: u8 = 64;
pub const TOP_LEVEL: u8 = 10;
pub const MOST_CELLS: usize = 4096;
pub const MOST_CORNERS: usize = 16384;
pub const WHOLE: u16 = 1024;

/// A mesh that `examine_mesh` accepted.
#[derive(Clone, Debug, PartialEq)]
pub struct Coarse {
    pub positions: Vec<[i32; 3]>,
    pub cells: Vec<[u16; 4]>,
}

/// Weights on coarse corners, by rising coarse corner, none 0, adding to 1,024.
pub type Weights = Vec<(u16, u16)>;

/// An edge: its two ends (numbers in `Layout::corners`), the lower first.
pub type Edge = (usize, usize);

#[derive(Clone, Debug, PartialEq)]
pub struct Cell {
    pub level: u8,
    /// None for a coarse cell.
    pub parent: Option<usize>,
    /// Its place, from 0, in its parent's family; 0 for a coarse cell.
    pub child: u8,
    /// Numbers in `Layout::corners`, in local order.
    pub corners: [usize; 4],
    pub regular: bool,
    pub status: u8,
}

#[derive(Clone, Debug, PartialEq)]
pub struct Layout {
    pub cells: Vec<Cell>,
    pub corners: Vec<Weights>,
    /// How many levels there are: the top one's number plus 1.
    pub levels: usize,
}

// ---------------------------------------------------------------- coarse mesh

/// Refusals 1 to 5, each over the whole mesh before the next.
pub fn examine_mesh(positions: &[i32], cells: &[u16]) -> Result<Coarse, Refusal> {
    if positions.len() % 3 != 0 || cells.len() % 4 != 0 {
        return Err(1);
    }
    let positions: Vec<[i32; 3]> = positions.chunks(3).map(|p| [p[0], p[1], p[2]]).collect();
    let cells: Vec<[u16; 4]> = cells.chunks(4).map(|c| [c[0], c[1], c[2], c[3]]).collect();
    if !(4..=512).contains(&positions.len()) || !(1..=256).contains(&cells.len()) {
        return Err(1);
    }
    if positions.iter().flatten().any(|x| !(-500_000..=500_000).contains(x)) {
        return Err(2);
    }
    let good_numbers = |c: &[u16; 4]| {
        c[0] < c[1] && c[1] < c[2] && c[2] < c[3] && (c[3] as usize) < positions.len()
    };
    if !cells.iter().all(good_numbers) {
        return Err(3);
    }
    if cells.iter().any(|c| flat(c.map(|k| positions[k as usize]))) {
        return Err(4);
    }
    let different: HashSet<[u16; 4]> = cells.iter().copied().collect();
    if different.len() < cells.len() || face_counts(&cells).values().any(|&n| n >= 3) {
        return Err(5);
    }
    Ok(Coarse { positions, cells })
}

/// Whether the determinant of the three edge vectors is zero.
pub fn flat(corners: [[i32; 3]; 4]) -> bool {
    let [a, b, c] = [1, 2, 3]
        .map(|k| [0, 1, 2].map(|j| corners[k][j] as i128 - corners[0][j] as i128));
    let determinant = a[0] * (b[1] * c[2] - b[2] * c[1]) - a[1] * (b[0] * c[2] - b[2] * c[0])
        + a[2] * (b[0] * c[1] - b[1] * c[0]);
    determinant == 0
}

/// The four faces of a coarse cell, each ascending.
pub fn faces(c: [u16; 4]) -> [[u16; 3]; 4] {
    [[c[1], c[2], c[3]], [c[0], c[2], c[3]], [c[0], c[1], c[3]], [c[0], c[1], c[2]]]
}

/// In how many coarse cells each coarse face is.
pub fn face_counts(cells: &[[u16; 4]]) -> HashMap<[u16; 3], usize> {
    let mut counts = HashMap::new();
    for face in cells.iter().flat_map(|&c| faces(c)) {
        *counts.entry(face).or_insert(0) += 1;
    }
    counts
}

// ------------------------------------------------------------ corners, edges

/// Half the sum of the ends' weights; None where that is not whole.
pub fn half_sum(a: &Weights, b: &Weights) -> Option<Weights> {
    let mut sum: BTreeMap<u16, u16> = BTreeMap::new();
    for &(corner, weight) in a.iter().chain(b) {
        *sum.entry(corner).or_insert(0) += weight;
    }
    sum.into_iter().map(|(c, w)| (w % 2 == 0).then_some((c, w / 2))).collect()
}

/// The weighted sum over 1,024.
pub fn position(coarse: &Coarse, weights: &Weights) -> [f64; 3] {
    [0, 1, 2].map(|axis| {
        let sum: i64 =
            weights.iter().map(|&(c, w)| w as i64 * coarse.positions[c as usize][axis] as i64).sum();
        sum as f64 / 1024.0
    })
}

/// A cell's edges in edge order.
pub fn edges(cell: &Cell) -> [Edge; 6] {
    EDGES.map(|(a, b)| {
        let (a, b) = (cell.corners[a], cell.corners[b]);
        (a.min(b), a.max(b))
    })
}

/// The pattern of those of the cell's edges that are in the set.
pub fn pattern(cell: &Cell, held: &HashSet<Edge>) -> u8 {
    (0..6).filter(|&e| held.contains(&edges(cell)[e])).map(|e| 1 << e).sum()
}

// ------------------------------------------------------------------- layouts

/// Lays cells out level by level. For each level in turn, `choose` sees all
/// cells so far (the level's own ones still with status 0) and gives the
/// statuses, each at most 64, of the level's cells.
pub fn grow(
    coarse: &Coarse,
    mut choose: impl FnMut(&[Cell], Range<usize>) -> Result<Vec<u8>, Refusal>,
) -> Result<Layout, Refusal> {
    let mut corners: Vec<Weights> =
        (0..coarse.positions.len()).map(|k| vec![(k as u16, WHOLE)]).collect();
    let mut numbers: HashMap<Weights, usize> = corners.iter().cloned().zip(0..).collect();
    let mut cells: Vec<Cell> = Vec::new();
    for c in &coarse.cells {
        let corners = c.map(|k| k as usize);
        cells.push(Cell { level: 0, parent: None, child: 0, corners, regular: true, status: LEAF });
    }
    let mut levels = 0;
    let mut start = 0;
    while start < cells.len() {
        let level = start..cells.len();
        start = cells.len();
        levels += 1;
        let statuses = choose(&cells, level.clone())?;
        assert_eq!(statuses.len(), level.len());
        for (i, status) in level.zip(statuses) {
            cells[i].status = status;
            if status == LEAF {
                continue;
            }
            let cell = cells[i].clone();
            let split = if status == RED { 63 } else { status };
            let mut points = [None; 10];
            for k in 0..4 {
                points[CORNER_DIGIT[k]] = Some(cell.corners[k]);
            }
            for (e, (a, b)) in EDGES.into_iter().enumerate() {
                if split >> e & 1 == 1 {
                    let middle = half_sum(&corners[cell.corners[a]], &corners[cell.corners[b]])
                        .expect("weights are whole up to level 10");
                    let next = corners.len();
                    let number = *numbers.entry(middle.clone()).or_insert(next);
                    if number == next {
                        corners.push(middle);
                    }
                    points[MIDPOINT_DIGIT[e]] = Some(number);
                }
            }
            for (child, digits) in family(split)?.into_iter().enumerate() {
                cells.push(Cell {
                    level: cell.level + 1,
                    parent: Some(i),
                    child: child as u8,
                    corners: digits.map(|d| points[d as usize].expect("a present point")),
                    regular: status == RED,
                    status: LEAF,
                });
            }
        }
    }
    Ok(Layout { cells, corners, levels })
}

/// Refusal 6, or the layout of a sound table.
pub fn examine_table(coarse: &Coarse, status: &[u8]) -> Result<Layout, Refusal> {
    if status.len() > MOST_CELLS || status.iter().any(|&s| s > RED) {
        return Err(6);
    }
    let layout = grow(coarse, |cells, level| {
        let statuses = status.get(level.clone()).ok_or(6)?.to_vec();
        for (i, &s) in level.zip(&statuses) {
            if s != LEAF && (cells[i].level == TOP_LEVEL || !cells[i].regular) {
                return Err(6);
            }
        }
        Ok(statuses)
    })?;
    if layout.cells.len() == status.len() && sound(&layout) {
        Ok(layout)
    } else {
        Err(6)
    }
}

/// The three conditions of a sound table.
pub fn sound(layout: &Layout) -> bool {
    let mut red_edges_of_level = vec![HashSet::new(); layout.levels];
    let mut red_edges = HashSet::new();
    for cell in layout.cells.iter().filter(|c| c.status == RED) {
        red_edges_of_level[cell.level as usize].extend(edges(cell));
        red_edges.extend(edges(cell));
    }
    let closed_rightly = |c: &Cell| {
        !c.regular || c.status == RED || c.status == pattern(c, &red_edges_of_level[c.level as usize])
    };
    let others_leaves = |c: &Cell| c.regular || c.status == LEAF;
    let children = children(layout);
    let no_red_beside_green = |i: usize| {
        !green(&layout.cells[i])
            || inner_edges(layout, i, &children[i]).is_disjoint(&red_edges)
    };
    layout.cells.iter().all(closed_rightly)
        && layout.cells.iter().all(others_leaves)
        && (0..layout.cells.len()).all(no_red_beside_green)
}

pub fn green(cell: &Cell) -> bool {
    cell.status != LEAF && cell.status != RED
}

/// The edges of the cell's children that are not the cell's own.
pub fn inner_edges(layout: &Layout, cell: usize, children: &[usize]) -> HashSet<Edge> {
    let own = edges(&layout.cells[cell]);
    children
        .iter()
        .flat_map(|&k| edges(&layout.cells[k]))
        .filter(|e| !own.contains(e))
        .collect()
}

/// Each cell's children, in order.
pub fn children(layout: &Layout) -> Vec<Vec<usize>> {
    let mut children = vec![Vec::new(); layout.cells.len()];
    for (i, cell) in layout.cells.iter().enumerate() {
        if let Some(parent) = cell.parent {
            children[parent].push(i);
        }
    }
    children
}

/// The statuses of one level from its red cells: patterns follow as for a
/// sound table.
pub fn close(cells: &[Cell], level: Range<usize>, red: impl Fn(usize) -> bool) -> Vec<u8> {
    let held: HashSet<Edge> =
        level.clone().filter(|&i| red(i)).flat_map(|i| edges(&cells[i])).collect();
    level
        .map(|i| match (red(i), cells[i].regular) {
            (true, _) => RED,
            (false, true) => pattern(&cells[i], &held),
            (false, false) => LEAF,
        })
        .collect()
}

/// The statuses of a layout's cells.
pub fn table(layout: &Layout) -> Vec<u8> {
    layout.cells.iter().map(|c| c.status).collect()
}

/// The coarse cell that the cell lies in, and the number of turns from parent to parent.
pub fn ancestor(layout: &Layout, cell: usize) -> (usize, usize) {
    let (mut coarse, mut turns) = (cell, 0);
    while let Some(parent) = layout.cells[coarse].parent {
        coarse = parent;
        turns += 1;
    }
    (coarse, turns)
}

/// For each level: cells, red, green, leaf.
pub fn counts(layout: &Layout) -> Vec<[usize; 4]> {
    let mut counts = vec![[0; 4]; layout.levels];
    for cell in &layout.cells {
        let row = &mut counts[cell.level as usize];
        row[0] += 1;
        row[match cell.status {
            RED => 1,
            LEAF => 3,
            _ => 2,
        }] += 1;
    }
    counts
}
