//! One step, from a status table and marks to the new status table.

use crate::families::{CORNER, EDGES, MIDPOINT};
use crate::layout::{key, keys, Layouter, MOST_CELLS, RED, TOP_LEVEL};
use crate::mesh::{self, Face};
use crate::table::Table;
use crate::Refusal;

pub const REFINE: u8 = 1;
pub const DELETE: u8 = 2;

/// The tables that a step works in.
pub struct Stepper {
    layouter: Layouter,
    /// For each status the edges of the children that are not the cell's own: a child, and the places of two of its corners.
    inner: Vec<Vec<(u8, u8, u8)>>,
    /// How many children each status has.
    pub(crate) sizes: [u8; 65],
    /// For each old cell whether it is red after the step, and its first child.
    red: Vec<bool>,
    first: Vec<u16>,
    /// The slots of the edges of cells that turn red, the last such cell first.
    turned: Vec<[u32; 6]>,
    /// The edges of cells that turn red or cease to be, and few others.
    touched: Filter,
    /// The old numbers of the red cells of the new table, in order.
    reds: Vec<u16>,
    new: Vec<u8>,
}

impl Stepper {
    pub fn new() -> Stepper {
        let layouter = Layouter::new();
        let mut inner = Vec::new();
        let mut sizes = [0; 65];
        for (status, family) in layouter.families.iter().enumerate() {
            sizes[status] = family.children.len() as u8;
            inner.push(family.inner.iter().map(|&edge| in_a_child(&family.children, edge)).collect());
        }
        Stepper {
            layouter,
            inner,
            sizes,
            red: Vec::new(),
            first: Vec::new(),
            turned: Vec::new(),
            touched: Filter::default(),
            reds: Vec::new(),
            new: Vec::new(),
        }
    }

    /// Room to examine a mesh in.
    pub(crate) fn faces(&mut self) -> &mut Table<Face> {
        &mut self.layouter.faces
    }

    /// The number of cells after the step, whose statuses stand first in `table` then. Refusals 15, 1 to 9 leave it as it is.
    pub fn step(
        &mut self,
        positions: &[i32],
        cells: &[u16],
        status: &[u8],
        marks: &[u8],
        table: &mut [u8],
    ) -> Result<usize, Refusal> {
        if table.len() < MOST_CELLS {
            return Err(15);
        }
        mesh::examine(positions, cells, &mut self.layouter.faces)?;
        if !self.layouter.build::<true, false>(positions, cells, status, room(status, marks)) {
            return Err(6);
        }
        let fits = |(&m, &s): (&u8, &u8)| m <= DELETE && (m == 0 || s == 0);
        if marks.len() != status.len() || !marks.iter().zip(status).all(fits) {
            return Err(7);
        }
        self.change(cells.len() / 4, status, marks, table)
    }

    /// The same where the mesh, the table and the marks are known to be right.
    pub fn step_trusted(
        &mut self,
        positions: &[i32],
        cells: &[u16],
        status: &[u8],
        marks: &[u8],
        table: &mut [u8],
    ) -> Result<usize, Refusal> {
        self.layouter.build::<false, false>(positions, cells, status, room(status, marks));
        self.change(cells.len() / 4, status, marks, table)
    }

    fn change(&mut self, coarse: usize, status: &[u8], marks: &[u8], table: &mut [u8]) -> Result<usize, Refusal> {
        if self.turn_red(status, marks) {
            return Err(8);
        }
        if !self.write(coarse, status) {
            return Err(9);
        }
        table[..self.new.len()].copy_from_slice(&self.new);
        Ok(self.new.len())
    }

    /// Finds the new red cells, the last ones first, and marks their edges as held: an edge belongs to one level, so what is
    /// held is held one level up. True where a level above the top one would arise.
    fn turn_red(&mut self, status: &[u8], marks: &[u8]) -> bool {
        let n = status.len();
        self.red.clear();
        self.red.resize(n, false);
        self.first.clear();
        self.first.resize(n, 0);
        self.turned.clear();
        self.touched = Filter::default();
        let (mut first, mut red) = (n, self.layouter.red.len());
        let mut too_high = false;
        for c in (0..n).rev() {
            let s = status[c];
            if s == 0 {
                let cell = &self.layouter.draft.cells[c];
                if marks[c] == REFINE && cell.regular {
                    too_high |= cell.level == TOP_LEVEL;
                    self.turn(c);
                }
                continue;
            }
            let last = first;
            first -= self.sizes[s as usize] as usize;
            self.first[c] = first as u16;
            if s == RED {
                red -= 1;
                let all = (first..last).all(|k| status[k] == 0 && marks[k] == DELETE);
                if !all || self.inner_held::<false>(s, first) {
                    self.red[c] = true;
                    for slot in self.layouter.red[red] {
                        self.layouter.edges.value(slot).held = true;
                    }
                } else {
                    self.touched.add(keys(&self.layouter.draft.cells[c].corners));
                }
            } else if marks[first..last].contains(&REFINE) || self.inner_held::<true>(s, first) {
                self.turn(c);
            }
        }
        too_high
    }

    /// Whether an edge of these children that is not their parent's is held. In a sound table no such edge of a green cell was a
    /// red cell's before.
    fn inner_held<const GREEN: bool>(&mut self, status: u8, first: usize) -> bool {
        let Layouter { draft, edges, .. } = &mut self.layouter;
        self.inner[status as usize].iter().any(|&(child, a, b)| {
            let corners = &draft.cells[first + child as usize].corners;
            let key = key(corners[a as usize], corners[b as usize]);
            (!GREEN || self.touched.may_have(key)) && edges.find(key).is_some_and(|slot| edges.value(slot).held)
        })
    }

    /// Makes a cell red that was not.
    fn turn(&mut self, c: usize) {
        let Layouter { draft, edges, .. } = &mut self.layouter;
        self.red[c] = true;
        let keys = keys(&draft.cells[c].corners);
        self.touched.add(keys);
        let slots = keys.map(|key| edges.enter(key));
        for slot in slots {
            edges.value(slot).held = true;
        }
        self.turned.push(slots);
    }

    /// Writes the new statuses; false where they become too many.
    fn write(&mut self, coarse: usize, status: &[u8]) -> bool {
        self.new.clear();
        self.reds.clear();
        let mut corners = self.layouter.draft.ends.len() as u16;
        for c in 0..coarse {
            self.write_old(c, status[c]);
        }
        let (mut at, mut reds) = (0, 0);
        while at < self.new.len() {
            if self.new.len() > MOST_CELLS {
                return false;
            }
            match self.new[at] {
                0 => {}
                RED => {
                    let c = self.reds[reds] as usize;
                    reds += 1;
                    if status[c] == RED {
                        let first = self.first[c] as usize;
                        for k in first..first + 8 {
                            self.write_old(k, status[k]);
                        }
                    } else {
                        self.write_family(c, &mut corners);
                    }
                }
                green => {
                    let n = self.new.len() + self.sizes[green as usize] as usize;
                    self.new.resize(n, 0);
                }
            }
            at += 1;
        }
        self.new.len() <= MOST_CELLS
    }

    /// The new status of an old cell: the old one, where it was not red and no edge is touched.
    #[inline]
    fn write_old(&mut self, c: usize, old: u8) {
        let corners = self.layouter.draft.cells[c].corners;
        if self.red[c] {
            self.reds.push(c as u16);
            self.new.push(RED);
        } else if keys(&corners).into_iter().any(|key| self.touched.may_have(key)) {
            self.write_pattern(&corners);
        } else {
            self.new.push(old);
        }
    }

    /// The new statuses of the children of a cell that has turned red.
    fn write_family(&mut self, c: usize, next: &mut u16) {
        let slots = self.turned.pop().expect("a cell that turned red");
        let mut points = [0; 10];
        let corners = self.layouter.draft.cells[c].corners;
        for k in 0..4 {
            points[CORNER[k]] = corners[k];
        }
        for e in 0..EDGES.len() {
            let edge = self.layouter.edges.value(slots[e]);
            if edge.middle == 0 {
                edge.middle = *next;
                *next += 1;
            }
            points[MIDPOINT[e]] = edge.middle;
        }
        for child in 0..8 {
            let corners = self.layouter.families[RED as usize].children[child].map(|d| points[d as usize]);
            self.write_pattern(&corners);
        }
    }

    /// The status of a regular cell that is not red.
    #[inline]
    fn write_pattern(&mut self, corners: &[u16; 4]) {
        let edges = &mut self.layouter.edges;
        let mut pattern = 0;
        for (e, key) in keys(corners).into_iter().enumerate() {
            if let Some(slot) = edges.find(key) {
                pattern |= (edges.value(slot).held as u8) << e;
            }
        }
        self.new.push(pattern);
    }
}

/// A set of edges that may have some more than were put in.
struct Filter([u64; 128]);

impl Filter {
    #[inline]
    fn place(key: u32) -> (usize, u64) {
        let bit = key.wrapping_mul(0x9e37_79b1) >> 19;
        ((bit / 64) as usize, 1 << (bit % 64))
    }

    fn add(&mut self, keys: [u32; 6]) {
        for key in keys {
            let (word, bit) = Filter::place(key);
            self.0[word] |= bit;
        }
    }

    #[inline]
    fn may_have(&self, key: u32) -> bool {
        let (word, bit) = Filter::place(key);
        self.0[word] & bit != 0
    }
}

impl Default for Filter {
    fn default() -> Filter {
        Filter([0; 128])
    }
}

impl Default for Stepper {
    fn default() -> Stepper {
        Stepper::new()
    }
}

/// Room for the edges of all cells that may be red before or after the step. Cells share edges: half of six a cell is enough,
/// and at most the whole table is filled but for two slots.
fn room(status: &[u8], marks: &[u8]) -> usize {
    let refined = status.iter().filter(|&&s| s != 0).count();
    let marked = marks.iter().filter(|&&m| m == REFINE).count();
    3 * (refined + marked) + 1
}

/// A child that has this edge, and the places of the edge's ends among its corners.
fn in_a_child(children: &[[u8; 4]], edge: [u8; 2]) -> (u8, u8, u8) {
    for (child, corners) in children.iter().enumerate() {
        let place = |digit: u8| corners.iter().position(|&d| d == digit);
        if let (Some(a), Some(b)) = (place(edge[0]), place(edge[1])) {
            return (child as u8, a as u8, b as u8);
        }
    }
    unreachable!("each edge is a child's")
}
