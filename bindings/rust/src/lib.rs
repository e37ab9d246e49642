//! Yuccadice for Rust: red/green refinement of tetrahedral meshes, every promise of the library proved. The functions here make the tables that the
//! library fills; those of [`lent`] take them from the caller, of any length. What each table holds is said in include/yuccadice.h.
//!
//! ```
//! use yuccadice::{lay_out, step, Mesh, LEAF, REFINE};
//! let mesh = Mesh { positions: vec![0, 0, 0, 16, 0, 0, 0, 16, 0, 0, 0, 16], cells: vec![0, 1, 2, 3] };
//! let status = step(&mesh, &[LEAF], &[REFINE])?;
//! let layout = lay_out(&mesh, &status)?;
//! assert_eq!((layout.cells.len(), layout.position(4)?), (9, [8.0, 0.0, 0.0]));
//! # Ok::<(), yuccadice::Refusal>(())
//! ```
#![deny(missing_docs)]

use std::collections::HashMap;
use std::fmt;

pub mod lent;
pub mod parts;

/// The version of the library that this crate belongs to.
pub const VERSION: &str = "1.3.0";
/// The version as one number: 10,000 times its first, 100 times its second, its third.
pub const VERSION_NUMBER: u32 = 10_300;

/// A coarse mesh has 4 to so many corners.
pub const MOST_COARSE_CORNERS: usize = 512;
/// A coarse mesh has 1 to so many cells.
pub const MOST_COARSE_CELLS: usize = 256;
/// A coordinate is within this, on both sides of 0, in tenths of a millimetre.
pub const MOST_COORDINATE: i32 = 500_000;
/// A table has at most so many cells, over all levels.
pub const MOST_CELLS: usize = 4096;
/// A table has at most so many corners.
pub const MOST_CORNERS: usize = 16_384;
/// Levels are 0 to 10.
pub const MOST_LEVELS: usize = 11;
/// An archive has at most so many bytes.
pub const MOST_BYTES: usize = 65_536;
/// A split job has 1 to so many parts.
pub const MOST_PARTS: usize = 16;
/// Bytes of stack: more than any call needs. A thread that is started with less ends the program by a signal.
pub const STACK: usize = 1_048_576;

/// The full length of `digits`: four digits for each of eight children.
pub const DIGITS_LENGTH: usize = 32;
/// The full length of `table` of a layout: eight numbers a cell.
pub const TABLE_LENGTH: usize = 32_768;
/// The full length of `ends`: two numbers a corner.
pub const ENDS_LENGTH: usize = 32_768;
/// The full length of `sums`: three numbers a corner.
pub const SUMS_LENGTH: usize = 49_152;
/// The full length of `counts`: four numbers a level.
pub const COUNTS_LENGTH: usize = 44;
/// The full length of a step's table: a status a cell.
pub const STATUS_LENGTH: usize = 4096;
/// The full length of `positions` of an archive: three numbers a coarse corner.
pub const POSITIONS_LENGTH: usize = 1536;
/// The full length of `cells` of an archive: four numbers a coarse cell.
pub const COARSE_CELLS_LENGTH: usize = 1024;
/// The full length of `marked` of an archive: a cell number a mark.
pub const MARKED_LENGTH: usize = 16_384;
/// The full length of `marks` of an archive: 1 or 2 a mark.
pub const MARKS_LENGTH: usize = 16_384;
/// The full length of `step_ends` of an archive: a number a step.
pub const STEP_ENDS_LENGTH: usize = 65_536;
/// The full length of `bytes`.
pub const BYTES_LENGTH: usize = 65_536;
/// The full length of a part's store.
pub const STORE_LENGTH: usize = 226_488;
/// The full length of `stores`: sixteen stores, whatever the number of parts.
pub const STORES_LENGTH: usize = 3_623_808;
/// The full length of a fetched message: the longest one.
pub const MESSAGE_LENGTH: usize = 9;
/// The full length of `rows`: fourteen numbers a master or ghost.
pub const HELD_LENGTH: usize = 57_344;

/// The status of a leaf.
pub const LEAF: u8 = 0;
/// The status of a red cell. From 1 to 63: green, closed with that pattern.
pub const RED: u8 = 64;
/// The mark that refines a cell; 0 is no mark.
pub const REFINE: u8 = 1;
/// The mark that deletes a cell.
pub const DELETE: u8 = 2;
/// The parent of a coarse cell in the library's own table; [`Cell::parent`] is `None`.
pub const NO_PARENT: u16 = 65_535;
/// The stage of a running part as [`lent::stage`] tells it; [`Stage::Running`].
pub const RUNNING: usize = 1;
/// The stage of a part that is done; [`Stage::Done`].
pub const DONE: usize = 2;

/// What the functions of [`lent`] answer where the call is accepted.
pub const ACCEPTED: u8 = 0;

/// The number of a refusal.
#[derive(Clone, Copy, Debug, PartialEq, Eq, Hash)]
pub struct Refusal(pub u8);

impl Refusal {
    /// Too few or too many corners or cells, or a list's length no multiple of 3 or 4.
    pub const COUNTS: Refusal = Refusal(1);
    /// A coordinate out of its range.
    pub const RANGE: Refusal = Refusal(2);
    /// A cell's corner numbers do not ascend strictly, or are not below the count.
    pub const NUMBERS: Refusal = Refusal(3);
    /// A flat cell.
    pub const FLAT: Refusal = Refusal(4);
    /// Two cells with the same corners, or a face in three cells.
    pub const FACES: Refusal = Refusal(5);
    /// A status table that is not sound, or a pattern above 63.
    pub const STATUS: Refusal = Refusal(6);
    /// Marks of wrong length, above 2 or not 0 on a refined cell, or a cell or corner number not below the count.
    pub const MARKS: Refusal = Refusal(7);
    /// A level above 10 would arise.
    pub const LEVEL: Refusal = Refusal(8);
    /// More than 4,096 cells would arise.
    pub const CELLS: Refusal = Refusal(9);
    /// A number of parts that is not 1 to 16.
    pub const PARTS: Refusal = Refusal(10);
    /// Owners of wrong length or out of range, or two in a family.
    pub const OWNERS: Refusal = Refusal(11);
    /// A message of no known form, for another part, of what the part does not hold, or with a value out of range.
    pub const MESSAGE: Refusal = Refusal(12);
    /// A message that was taken before.
    pub const TAKEN: Refusal = Refusal(13);
    /// A message that comes too early, or to a part that is done.
    pub const EARLY: Refusal = Refusal(14);
    /// A lent table is shorter than its full length.
    pub const SHORT: Refusal = Refusal(15);
    /// A store out of range, or at a stage that the call does not fit, or stores that do not make one table.
    pub const STORE: Refusal = Refusal(16);
    /// An archive's bytes are not in the form, or would be more than 65,536.
    pub const FORM: Refusal = Refusal(17);
}

impl fmt::Display for Refusal {
    fn fmt(&self, f: &mut fmt::Formatter) -> fmt::Result {
        let why = match *self {
            Refusal::COUNTS => "too few or too many corners or cells, or a list's length no multiple of 3 or 4",
            Refusal::RANGE => "a coordinate out of its range",
            Refusal::NUMBERS => "a cell's corner numbers do not ascend strictly, or are not below the count",
            Refusal::FLAT => "a flat cell",
            Refusal::FACES => "two cells with the same corners, or a face in three cells",
            Refusal::STATUS => "a status table that is not sound, or a pattern above 63",
            Refusal::MARKS => "marks of wrong length, above 2 or not 0 on a refined cell, or a cell or corner number not below the count",
            Refusal::LEVEL => "a level above 10 would arise",
            Refusal::CELLS => "more than 4,096 cells would arise",
            Refusal::PARTS => "a number of parts that is not 1 to 16",
            Refusal::OWNERS => "owners of wrong length or out of range, or two in a family",
            Refusal::MESSAGE => "a message of no known form, for another part, of what the part does not hold, or with a value out of range",
            Refusal::TAKEN => "a message that was taken before",
            Refusal::EARLY => "a message that comes too early, or to a part that is done",
            Refusal::SHORT => "a lent table is shorter than its full length",
            Refusal::STORE => "a store out of range, or at a stage that the call does not fit, or stores that do not make one table",
            Refusal::FORM => "an archive's bytes are not in the form, or would be more than 65,536",
            _ => "no answer of this library",
        };
        write!(f, "refused {}: {why}", self.0)
    }
}

impl std::error::Error for Refusal {}

fn accepted(answer: u8) -> Result<(), Refusal> {
    if answer == ACCEPTED {
        Ok(())
    } else {
        Err(Refusal(answer))
    }
}

/// A coarse mesh: three coordinates a corner, four corner numbers a cell.
#[derive(Clone, Debug, Default, PartialEq)]
pub struct Mesh {
    /// Three coordinates a corner, in tenths of a millimetre.
    pub positions: Vec<i32>,
    /// Four corner numbers a cell, strictly ascending.
    pub cells: Vec<u16>,
}

/// A row of the table of cells.
#[derive(Clone, Copy, Debug, PartialEq)]
pub struct Cell {
    /// 0 for a coarse cell.
    pub level: u16,
    /// None for a coarse cell.
    pub parent: Option<u16>,
    /// Its place in its parent's family, from 0.
    pub child: u16,
    /// Coarse cells and children of red cells are regular.
    pub regular: bool,
    /// In local order.
    pub corners: [u16; 4],
}

/// The cells and corners of a status table.
#[derive(Clone, Debug, PartialEq)]
pub struct Layout {
    /// Level by level, in each level by parent and then child.
    pub cells: Vec<Cell>,
    /// For each corner the two in whose middle it lies, both of them lower numbers than its own; a coarse corner's own number twice.
    pub ends: Vec<[u16; 2]>,
    /// How many levels there are.
    pub levels: usize,
    /// For each corner 1,024 times its coordinates, at the full length.
    sums: Vec<i32>,
}

impl Layout {
    /// A corner's position in tenths of a millimetre, exact.
    pub fn position(&self, corner: usize) -> Result<[f64; 3], Refusal> {
        let [mut x, mut y, mut z] = [0.0; 3];
        accepted(lent::position(&self.sums, self.ends.len(), corner, &mut x, &mut y, &mut z))?;
        Ok([x, y, z])
    }

    /// Each corner's name, which no step changes: pairs of a coarse corner and its weight, the corners ascending. Weights add to 1,024.
    pub fn weights(&self) -> Vec<Vec<(u16, u16)>> {
        let mut all: Vec<Vec<(u16, u16)>> = Vec::with_capacity(self.ends.len());
        for (corner, &[a, b]) in self.ends.iter().enumerate() {
            if a == b {
                all.push(vec![(corner as u16, 1024)]);
                continue;
            }
            let mut sums = all[a as usize].clone();
            for &(coarse, weight) in &all[b as usize] {
                match sums.iter_mut().find(|sum| sum.0 == coarse) {
                    Some(sum) => sum.1 += weight,
                    None => sums.push((coarse, weight)),
                }
            }
            sums.sort_unstable();
            all.push(sums.into_iter().map(|(coarse, weight)| (coarse, weight / 2)).collect());
        }
        all
    }
}

/// For each corner of `new` the number that it had in `old`, or `None` where it was not there; both lay tables over one coarse mesh out.
///
/// A step may renumber corners that stay, so values at corners are carried over by this. It goes by weights; it is not proved.
pub fn match_corners(old: &Layout, new: &Layout) -> Vec<Option<usize>> {
    let known: HashMap<_, _> = old.weights().into_iter().enumerate().map(|(corner, weights)| (weights, corner)).collect();
    new.weights().iter().map(|weights| known.get(weights).copied()).collect()
}

/// How many cells a level has, and of which kinds.
#[derive(Clone, Copy, Debug, PartialEq)]
pub struct Counts {
    /// All its cells.
    pub cells: u16,
    /// Those with status 64.
    pub red: u16,
    /// Those with a status from 1 to 63.
    pub green: u16,
    /// Those with status 0.
    pub leaves: u16,
}

fn by_level(counts: &[u16], levels: usize) -> Vec<Counts> {
    let row = |c: &[u16]| Counts { cells: c[0], red: c[1], green: c[2], leaves: c[3] };
    counts[..4 * levels].chunks(4).map(row).collect()
}

/// A mesh and, for each step, its marked cells with their marks.
#[derive(Clone, Debug, Default, PartialEq)]
pub struct Job {
    /// The coarse mesh.
    pub mesh: Mesh,
    /// For each step its marked cells, ascending, each with its mark.
    pub steps: Vec<Vec<(u16, u8)>>,
}

/// The children of a cell by its pattern, four digits each.
pub fn cut(pattern: u8) -> Result<Vec<[u8; 4]>, Refusal> {
    let (mut digits, mut count) = ([0; DIGITS_LENGTH], 0);
    accepted(lent::cut(pattern, &mut digits, &mut count))?;
    Ok(digits[..4 * count].chunks(4).map(|d| [d[0], d[1], d[2], d[3]]).collect())
}

/// Whether a coarse mesh is accepted.
pub fn examine_mesh(mesh: &Mesh) -> Result<(), Refusal> {
    accepted(lent::examine_mesh(&mesh.positions, &mesh.cells))
}

/// Whether a coarse mesh and a status table over it are accepted.
pub fn examine_table(mesh: &Mesh, status: &[u8]) -> Result<(), Refusal> {
    accepted(lent::examine_table(&mesh.positions, &mesh.cells, status))
}

/// Lays the cells and corners of a status table out.
pub fn lay_out(mesh: &Mesh, status: &[u8]) -> Result<Layout, Refusal> {
    let (mut table, mut ends, mut sums) = (vec![0; TABLE_LENGTH], vec![0; ENDS_LENGTH], vec![0; SUMS_LENGTH]);
    let [mut cells, mut corners, mut levels] = [0; 3];
    let (p, c) = (&mesh.positions, &mesh.cells);
    accepted(lent::lay_out(p, c, status, &mut table, &mut ends, &mut sums, &mut cells, &mut corners, &mut levels))?;
    let cell = |r: &[u16]| Cell {
        level: r[0],
        parent: (r[1] != NO_PARENT).then_some(r[1]),
        child: r[2],
        regular: r[3] == 1,
        corners: [r[4], r[5], r[6], r[7]],
    };
    Ok(Layout {
        cells: table[..8 * cells].chunks(8).map(cell).collect(),
        ends: ends[..2 * corners].chunks(2).map(|e| [e[0], e[1]]).collect(),
        levels,
        sums,
    })
}

/// A cell's coarse ancestor, and the number of turns from parent to parent, which is the cell's level.
pub fn ancestor(mesh: &Mesh, status: &[u8], cell: usize) -> Result<(usize, usize), Refusal> {
    let [mut coarse, mut level] = [0; 2];
    accepted(lent::ancestor(&mesh.positions, &mesh.cells, status, cell, &mut coarse, &mut level))?;
    Ok((coarse, level))
}

/// For each level how many cells it has, and of which kinds.
pub fn counts(mesh: &Mesh, status: &[u8]) -> Result<Vec<Counts>, Refusal> {
    let (mut counts, mut levels) = ([0; COUNTS_LENGTH], 0);
    accepted(lent::counts(&mesh.positions, &mesh.cells, status, &mut counts, &mut levels))?;
    Ok(by_level(&counts, levels))
}

/// The status table after one step. It may renumber cells, and corners that stay: see [`match_corners`].
pub fn step(mesh: &Mesh, status: &[u8], marks: &[u8]) -> Result<Vec<u8>, Refusal> {
    let (mut table, mut cells) = (vec![0; STATUS_LENGTH], 0);
    accepted(lent::step(&mesh.positions, &mesh.cells, status, marks, &mut table, &mut cells))?;
    table.truncate(cells);
    Ok(table)
}

/// The job of an archive's bytes.
pub fn read(bytes: &[u8]) -> Result<Job, Refusal> {
    let (mut positions, mut cells) = (vec![0; POSITIONS_LENGTH], vec![0; COARSE_CELLS_LENGTH]);
    let (mut marked, mut marks, mut ends) = (vec![0; MARKED_LENGTH], vec![0; MARKS_LENGTH], vec![0; STEP_ENDS_LENGTH]);
    let [mut v, mut t, mut m, mut g] = [0; 4];
    accepted(lent::read(
        bytes, &mut positions, &mut cells, &mut marked, &mut marks, &mut ends, &mut v, &mut t, &mut m, &mut g,
    ))?;
    positions.truncate(3 * v);
    cells.truncate(4 * t);
    let all: Vec<(u16, u8)> = marked.into_iter().zip(marks).take(m).collect();
    let mut start = 0;
    let mut steps = Vec::new();
    for &end in &ends[..g] {
        steps.push(all[start..end as usize].to_vec());
        start = end as usize;
    }
    Ok(Job { mesh: Mesh { positions, cells }, steps })
}

/// The bytes of a job's archive.
pub fn write(job: &Job) -> Result<Vec<u8>, Refusal> {
    let (marked, marks): (Vec<u16>, Vec<u8>) = job.steps.iter().flatten().copied().unzip();
    if marked.len() > 65_535 {
        return Err(too_long(job));
    }
    let mut end = 0;
    let mut ends = Vec::new();
    for step in &job.steps {
        end += step.len() as u16;
        ends.push(end);
    }
    let (mut bytes, mut count) = (vec![0; BYTES_LENGTH], 0);
    accepted(lent::write(&job.mesh.positions, &job.mesh.cells, &marked, &marks, &ends, &mut bytes, &mut count))?;
    bytes.truncate(count);
    Ok(bytes)
}

/// Why a job of more marks than `lent::write` can be told of is refused: by its mesh, by a step, or because its bytes would be too many.
fn too_long(job: &Job) -> Refusal {
    let run = || -> Result<Refusal, Refusal> {
        examine_mesh(&job.mesh)?;
        let mut status = vec![LEAF; job.mesh.cells.len() / 4];
        for marked in &job.steps {
            let mut marks = vec![0; status.len()];
            for (k, &(cell, mark)) in marked.iter().enumerate() {
                let rises = k == 0 || marked[k - 1].0 < cell;
                match marks.get_mut(cell as usize) {
                    Some(place) if rises && mark != 0 => *place = mark,
                    _ => return Err(Refusal::MARKS),
                }
            }
            status = step(&job.mesh, &status, &marks)?;
        }
        Ok(Refusal::FORM)
    };
    run().unwrap_or_else(|refusal| refusal)
}

/// The status table after all steps of an archive, and the counts of its levels.
pub fn replay(bytes: &[u8]) -> Result<(Vec<u8>, Vec<Counts>), Refusal> {
    let (mut table, mut counts) = (vec![0; STATUS_LENGTH], [0; COUNTS_LENGTH]);
    let [mut cells, mut levels] = [0; 2];
    accepted(lent::replay(bytes, &mut table, &mut counts, &mut cells, &mut levels))?;
    table.truncate(cells);
    Ok((table, by_level(&counts, levels)))
}
