//! What the independent program answers, in the shape of the library's functions.

use independent::archive::{self, Job};
use independent::cutting::family;
use independent::mesh::{self, examine_mesh, examine_table, Coarse, Layout, MOST_CORNERS};
use independent::Refusal;

pub type Answer<T> = Result<T, Refusal>;

pub fn number<T>(answer: &Answer<T>) -> u8 {
    answer.as_ref().err().copied().unwrap_or(0)
}

/// 15 first.
pub fn lent<T>(short: bool, answer: Answer<T>) -> Answer<T> {
    if short {
        Err(15)
    } else {
        answer
    }
}

pub fn cut(pattern: u8) -> Answer<(Vec<u8>, usize)> {
    let family = family(pattern)?;
    let mut digits = family.concat();
    digits.resize(32, 0);
    Ok((digits, family.len()))
}

pub fn open(positions: &[i32], cells: &[u16], status: &[u8]) -> Answer<(Coarse, Layout)> {
    let coarse = examine_mesh(positions, cells)?;
    let layout = examine_table(&coarse, status)?;
    Ok((coarse, layout))
}

pub fn position(sums: &[i32], corners: usize, corner: usize) -> Answer<[u64; 3]> {
    if corner >= corners || corner >= MOST_CORNERS {
        return Err(7);
    }
    Ok([0, 1, 2].map(|axis| (sums[3 * corner + axis] as f64 / 1024.0).to_bits()))
}

pub fn ancestor(layout: &Layout, cell: usize) -> Answer<(usize, usize)> {
    if cell >= layout.cells.len() {
        return Err(7);
    }
    Ok(mesh::ancestor(layout, cell))
}

pub fn counts(layout: &Layout) -> Vec<u16> {
    mesh::counts(layout).concat().into_iter().map(|n| n as u16).collect()
}

/// The table, the counts, and how many levels there are.
pub fn replay(bytes: &[u8]) -> Answer<(Vec<u8>, Vec<u16>, usize)> {
    let (coarse, table) = archive::replay(bytes)?;
    let layout = examine_table(&coarse, &table).expect("steps give a sound table");
    Ok((table, counts(&layout), layout.levels))
}

/// The flat tables of a job.
#[derive(Clone, Debug, Default)]
pub struct Flat {
    pub positions: Vec<i32>,
    pub cells: Vec<u16>,
    pub marked: Vec<u16>,
    pub marks: Vec<u8>,
    pub ends: Vec<u16>,
}

pub fn flat(job: &Job) -> Flat {
    let (marked, marks) = job.steps.iter().flatten().copied().unzip();
    let mut end = 0;
    let mut ends = Vec::new();
    for step in &job.steps {
        end += step.len() as u16;
        ends.push(end);
    }
    Flat { positions: job.positions.clone(), cells: job.cells.clone(), marked, marks, ends }
}

/// Flat tables that are no job's are refused with 7 in the turn of the step that does not fit: the steps before it are done first.
pub fn write(flat: &Flat) -> Answer<Vec<u8>> {
    let mut job = Job { positions: flat.positions.clone(), cells: flat.cells.clone(), steps: Vec::new() };
    let mut fits = flat.marked.len() == flat.marks.len();
    let all: Vec<(u16, u8)> = flat.marked.iter().copied().zip(flat.marks.iter().copied()).collect();
    let mut start = 0;
    for end in flat.ends.iter().map(|&end| end as usize) {
        fits = fits && start <= end && end <= all.len();
        if !fits {
            break;
        }
        job.steps.push(all[start..end].to_vec());
        start = end;
    }
    fits = fits && start == all.len();
    match archive::write(&job) {
        Ok(_) | Err(17) if !fits => Err(7),
        answer => answer,
    }
}
