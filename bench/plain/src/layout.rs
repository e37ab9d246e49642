//! Examining a status table and laying out its cells.

use crate::families::{families, Family, CORNER, EDGES, MIDPOINT};
use crate::mesh::{self, Face};
use crate::table::Table;
use crate::Refusal;

pub const RED: u8 = 64;
pub const TOP_LEVEL: u8 = 10;
pub const MOST_CELLS: usize = 4096;

/// The parent of a coarse cell.
pub const NO_PARENT: u16 = 65535;

#[derive(Clone, Copy, Debug, PartialEq)]
pub struct Cell {
    pub corners: [u16; 4],
    pub parent: u16,
    pub level: u8,
    pub child: u8,
    pub regular: bool,
}

#[derive(Clone, Debug, Default, PartialEq)]
pub struct Layout {
    pub cells: Vec<Cell>,
    /// Each corner's two ends, the lower first; a coarse corner is both its ends.
    pub ends: Vec<[u16; 2]>,
    /// 1,024 times each corner's position: the three weighted sums.
    pub sums: Vec<[i32; 3]>,
}

/// What is known of an edge that a red cell has.
#[derive(Clone, Copy, Default)]
pub(crate) struct Edge {
    /// The level of the last such cell.
    level: u8,
    /// Whether a cell has it that is red after the step.
    pub(crate) held: bool,
    /// The midpoint's number; 0 as long as it has none.
    pub(crate) middle: u16,
}

/// The families, and the tables that a call works in.
pub struct Layouter {
    pub(crate) families: Vec<Family>,
    pub(crate) faces: Table<Face>,
    pub(crate) edges: Table<Edge>,
    /// The slots of the red cells' edges, six a cell.
    pub(crate) red: Vec<[u32; 6]>,
    /// The edges that may not be a red cell's.
    barred: Vec<u32>,
    pub(crate) draft: Layout,
}

impl Layouter {
    pub fn new() -> Layouter {
        Layouter {
            families: families(),
            faces: Table::default(),
            edges: Table::default(),
            red: Vec::new(),
            barred: Vec::new(),
            draft: Layout::default(),
        }
    }

    /// Refusals 1 to 6 leave `out` as it is.
    pub fn lay_out(
        &mut self,
        positions: &[i32],
        cells: &[u16],
        status: &[u8],
        out: &mut Layout,
    ) -> Result<(), Refusal> {
        mesh::examine(positions, cells, &mut self.faces)?;
        let red = status.iter().filter(|&&s| s == RED).count();
        if !self.build::<true, true>(positions, cells, status, 6 * red) {
            return Err(6);
        }
        std::mem::swap(&mut self.draft, out);
        Ok(())
    }

    /// Lays out in the draft, with room for so many edges; the sums are left out where they are not wanted. False where the table
    /// is examined and not sound.
    pub(crate) fn build<const EXAMINE: bool, const SUMS: bool>(
        &mut self,
        positions: &[i32],
        cells: &[u16],
        status: &[u8],
        room: usize,
    ) -> bool {
        if EXAMINE && (status.len() > MOST_CELLS || status.iter().any(|&s| s > RED)) {
            return false;
        }
        self.edges.clear(room);
        self.red.clear();
        self.barred.clear();
        self.start(positions, cells);
        let mut level = 0;
        let (mut first, mut last) = (0, self.draft.cells.len());
        while first < last {
            if EXAMINE && last > status.len() {
                return false;
            }
            if EXAMINE && level == TOP_LEVEL && status[first..last].iter().any(|&s| s != 0) {
                return false;
            }
            let red = self.red.len();
            if !self.list_red_edges(status, first, last, level) {
                return false;
            }
            if !self.refine::<EXAMINE, SUMS>(status, first, last, level, red) {
                return false;
            }
            (first, last) = (last, self.draft.cells.len());
            level += 1;
        }
        !EXAMINE || last == status.len() && self.barred.iter().all(|&edge| self.edges.find(edge).is_none())
    }

    /// The coarse cells and corners.
    fn start(&mut self, positions: &[i32], cells: &[u16]) {
        let draft = &mut self.draft;
        draft.cells.clear();
        draft.cells.extend(cells.chunks_exact(4).map(|c| Cell {
            corners: [c[0], c[1], c[2], c[3]],
            parent: NO_PARENT,
            level: 0,
            child: 0,
            regular: true,
        }));
        draft.sums.clear();
        draft.sums.extend(positions.chunks_exact(3).map(|p| [1024 * p[0], 1024 * p[1], 1024 * p[2]]));
        draft.ends.clear();
        draft.ends.extend((0..draft.sums.len() as u16).map(|i| [i, i]));
    }

    /// False where a red cell of the level is not regular.
    fn list_red_edges(&mut self, status: &[u8], first: usize, last: usize, level: u8) -> bool {
        for c in first..last {
            if status[c] == RED {
                let cell = &self.draft.cells[c];
                if !cell.regular {
                    return false;
                }
                let slots = keys(&cell.corners).map(|key| self.edges.enter(key));
                for slot in slots {
                    self.edges.value(slot).level = level;
                }
                self.red.push(slots);
            }
        }
        true
    }

    /// Lays out the children of the level's cells, whose red ones stand in `self.red` from `red` on; false where a status is not
    /// the one that the red edges ask for.
    fn refine<const EXAMINE: bool, const SUMS: bool>(
        &mut self,
        status: &[u8],
        first: usize,
        last: usize,
        level: u8,
        mut red: usize,
    ) -> bool {
        for c in first..last {
            let cell = self.draft.cells[c];
            if status[c] == RED {
                self.cut::<EXAMINE, SUMS>(c, cell, RED, self.red[red]);
                red += 1;
            } else if !EXAMINE && status[c] == 0 {
                continue;
            } else if !cell.regular {
                if status[c] != 0 {
                    return false;
                }
            } else {
                let mut slots = [0; 6];
                let mut pattern = 0;
                for (e, key) in keys(&cell.corners).into_iter().enumerate() {
                    if let Some(slot) = self.edges.find(key) {
                        slots[e] = slot;
                        pattern |= ((self.edges.value(slot).level == level) as u8) << e;
                    }
                }
                if status[c] != pattern {
                    return false;
                }
                if pattern != 0 {
                    self.cut::<EXAMINE, SUMS>(c, cell, pattern, slots);
                }
            }
        }
        true
    }

    /// Lays out the children of cell c, where the edges that the status splits stand in these slots.
    fn cut<const EXAMINE: bool, const SUMS: bool>(&mut self, c: usize, cell: Cell, status: u8, slots: [u32; 6]) {
        let mut points = [0; 10];
        for k in 0..4 {
            points[CORNER[k]] = cell.corners[k];
        }
        let split = if status == RED { 63 } else { status };
        for e in 0..6 {
            if split >> e & 1 == 1 {
                let (a, b) = EDGES[e];
                points[MIDPOINT[e]] = self.midpoint::<SUMS>(slots[e], cell.corners[a], cell.corners[b]);
            }
        }
        let family = &self.families[status as usize];
        self.draft.cells.extend(family.children.iter().zip(0..).map(|(digits, child)| Cell {
            corners: digits.map(|d| points[d as usize]),
            parent: c as u16,
            level: cell.level + 1,
            child,
            regular: status == RED,
        }));
        if EXAMINE && status != RED {
            self.barred.extend(family.inner.iter().map(|&[p, q]| key(points[p as usize], points[q as usize])));
        }
    }

    /// The number of the midpoint of the edge in this slot.
    #[inline]
    fn midpoint<const SUMS: bool>(&mut self, slot: u32, a: u16, b: u16) -> u16 {
        let edge = self.edges.value(slot);
        if edge.middle == 0 {
            let Layout { ends, sums, .. } = &mut self.draft;
            edge.middle = ends.len() as u16;
            ends.push([a.min(b), a.max(b)]);
            if SUMS {
                let (p, q) = (sums[a as usize], sums[b as usize]);
                sums.push([0, 1, 2].map(|k| (p[k] + q[k]) / 2));
            }
        }
        edge.middle
    }
}

impl Default for Layouter {
    fn default() -> Layouter {
        Layouter::new()
    }
}

/// An edge by its two ends.
#[inline]
pub(crate) fn key(a: u16, b: u16) -> u32 {
    (a.min(b) as u32) << 16 | a.max(b) as u32
}

#[inline]
pub(crate) fn keys(corners: &[u16; 4]) -> [u32; 6] {
    EDGES.map(|(a, b)| key(corners[a], corners[b]))
}
