//! Random inputs, right and wrong ones.

use crate::expected::{flat, Flat};
use independent::archive::{put, Job, MOST_BYTES};
use independent::mesh::{examine_table, Coarse, Layout, LEAF, MOST_CELLS};
use independent::random::*;
use independent::step::step;
use independent::trial::{apart, corners};

/// What the calls on a mesh, a table and marks are given.
#[derive(Clone, Debug, PartialEq)]
pub struct Inputs {
    pub kind: &'static str,
    pub positions: Vec<i32>,
    pub cells: Vec<u16>,
    pub status: Vec<u8>,
    pub marks: Vec<u8>,
}

fn some_mesh(r: &mut Random) -> Coarse {
    let most = if r.once_in(40) { 256 } else { *r.pick(&[1, 1, 2, 2, 3, 3, 5, 8, 16, 30]) };
    coarse_up_to(r, most)
}

/// A sound table of some steps; on large meshes of fewer.
fn some_table(r: &mut Random, coarse: &Coarse) -> Vec<u8> {
    let mut table = vec![LEAF; coarse.cells.len()];
    for _ in 0..r.below(6) {
        let layout = examine_table(coarse, &table).expect("a sound table");
        if let Ok(new) = step(coarse, &table, &marks(r, &layout)) {
            table = new;
        }
        if table.len() > 300 && !r.once_in(8) {
            break;
        }
    }
    table
}

pub fn inputs(r: &mut Random) -> Inputs {
    match r.below(24) {
        0 => return any_numbers(r),
        1 => return small_numbers(r),
        2 | 3 => return deep(r),
        4 if r.once_in(4) => return many_cells(r),
        _ => {}
    }
    let coarse = some_mesh(r);
    let status = some_table(r, &coarse);
    let layout = examine_table(&coarse, &status).expect("a sound table");
    let (positions, cells) = (coarse.positions.concat(), coarse.cells.concat());
    let marks = if r.once_in(4) { refining(r, &layout) } else { marks(r, &layout) };
    let mut inputs = Inputs { kind: "sound", positions, cells, status, marks };
    match r.below(12) {
        0 | 1 => {
            inputs.kind = "damaged mesh";
            (inputs.positions, inputs.cells) = damaged_mesh(r, &coarse);
        }
        2 | 3 => {
            inputs.kind = "damaged table";
            inputs.status = damaged_table(r, &coarse, &inputs.status);
            inputs.marks.resize(inputs.status.len(), 0);
        }
        4 | 5 => {
            inputs.kind = "damaged marks";
            inputs.marks = damaged_marks(r, &layout);
        }
        6 => {
            inputs.kind = "damaged in several places";
            if r.once_in(2) {
                (inputs.positions, inputs.cells) = damaged_mesh(r, &coarse);
            }
            if r.once_in(2) {
                inputs.status = damaged_table(r, &coarse, &inputs.status);
            }
            if r.once_in(2) {
                inputs.marks = damaged_marks(r, &layout);
            }
        }
        7 => {
            inputs.kind = "table of another mesh";
            let other = coarse_up_to(r, 4);
            inputs.status = some_table(r, &other);
        }
        8 if r.once_in(3) => {
            inputs.kind = "long lists";
            lengthen(r, &mut inputs);
        }
        _ => {}
    }
    inputs
}

/// Longer by as much as 16 bits do not count.
fn lengthen(r: &mut Random, inputs: &mut Inputs) {
    const MORE: usize = 1 << 16;
    match r.below(4) {
        0 => inputs.positions.resize(inputs.positions.len() + 3 * MORE, 1),
        1 => inputs.cells.resize(inputs.cells.len() + 4 * MORE, 1),
        2 => inputs.status.resize(inputs.status.len() + MORE, 0),
        _ => inputs.marks.resize(inputs.marks.len() + MORE, 0),
    }
}

/// Marks that refine many leaves: often too many cells.
fn refining(r: &mut Random, layout: &Layout) -> Vec<u8> {
    let rarely = 1 + r.below(4);
    layout.cells.iter().map(|c| (c.status == LEAF && r.once_in(rarely)) as u8).collect()
}

/// Any lengths, any numbers.
fn any_numbers(r: &mut Random) -> Inputs {
    let most = *r.pick(&[1, 10, 100, 2000, 6000]);
    let positions = (0..r.below(most)).map(|_| r.next() as i32).collect();
    let cells = (0..r.below(most)).map(|_| r.next() as u16).collect();
    let status = (0..r.below(most)).map(|_| r.next() as u8).collect();
    let marks = (0..r.below(most)).map(|_| r.next() as u8).collect();
    Inputs { kind: "any numbers", positions, cells, status, marks }
}

/// Lengths that fit mostly, and numbers that fit here and there.
fn small_numbers(r: &mut Random) -> Inputs {
    let (corners, cells) = (4 + r.below(12), 1 + r.below(4));
    let reach = *r.pick(&[1, 4, 500_000, 500_001]);
    let mut more = |n| n + r.once_in(8) as usize;
    let (coordinates, numbers, length) = (more(3 * corners), more(4 * cells), more(cells));
    let positions = (0..coordinates).map(|_| r.between(-reach, reach) as i32).collect();
    let below = corners + r.once_in(8) as usize;
    let mut cells: Vec<u16> = (0..numbers).map(|_| r.below(below) as u16).collect();
    if !r.once_in(4) {
        cells.chunks_mut(4).for_each(|c| c.sort());
    }
    let status: Vec<u8> = (0..length).map(|_| if r.once_in(4) { r.below(66) as u8 } else { LEAF }).collect();
    let marks = (0..length).map(|_| r.below(3) as u8 + r.once_in(20) as u8).collect();
    Inputs { kind: "small numbers", positions, cells, status, marks }
}

/// Refined at the top again and again, up to level 10 or a little less.
fn deep(r: &mut Random) -> Inputs {
    let coarse = coarse_up_to(r, 3);
    let mut status = vec![LEAF; coarse.cells.len()];
    let mut marks = vec![0; status.len()];
    for _ in 0..9 + r.below(4) {
        let layout = examine_table(&coarse, &status).expect("a sound table");
        let top = |i: &usize| layout.cells[*i].regular && layout.cells[*i].level as usize + 1 == layout.levels;
        let leaves: Vec<usize> = (0..status.len()).filter(top).collect();
        marks = vec![0; status.len()];
        marks[*r.pick(&leaves)] = 1;
        match step(&coarse, &status, &marks) {
            Ok(new) => status = new,
            Err(_) => break,
        }
    }
    if marks.len() != status.len() || r.once_in(3) {
        marks = refining(r, &examine_table(&coarse, &status).expect("a sound table"));
    }
    Inputs { kind: "deep", positions: coarse.positions.concat(), cells: coarse.cells.concat(), status, marks }
}

/// About 4,096 cells after the step: of n cells that share no edge b are red, and the children of c of these will be.
fn many_cells(r: &mut Random) -> Inputs {
    let wanted = MOST_CELLS - 2 + r.below(5);
    let (n, b, c) = loop {
        let n = 1 + r.below(256);
        let b = r.below(n + 1);
        let left = wanted.saturating_sub(n + 8 * b);
        if left % 64 == 0 && left / 64 <= b {
            break (n, b, left / 64);
        }
    };
    let mut status = vec![0; n + 8 * b];
    status[..b].fill(64);
    let mut marks = vec![0; n + 8 * b];
    marks[n..n + 8 * c].fill(1);
    Inputs { kind: "at the limit of cells", positions: corners(n + 6), cells: apart(n), status, marks }
}

/// What the calls on archives are given: bytes, and the flat tables of a job.
#[derive(Clone, Debug)]
pub struct Archive {
    pub kind: &'static str,
    pub bytes: Vec<u8>,
    pub flat: Flat,
}

pub fn archive(r: &mut Random) -> Archive {
    let most = *r.pick(&[1, 1, 2, 3, 5, 12]);
    let job = small_job(r, most);
    let of_job = |kind, job: &Job| Archive { kind, bytes: put(job), flat: flat(job) };
    match r.below(14) {
        0..=2 => of_job("sound job", &job),
        3 => of_job("damaged job", &damaged_job(r, &job)),
        4 => of_job("job that goes too far", &too_far(r, &job)),
        5 if r.once_in(40) => of_job("many steps", &many_steps(r)),
        5 if r.once_in(2) => of_job("job at the limit of bytes", &long_job(r)),
        6..=8 => {
            let flat = flat(&damaged_job(r, &job));
            Archive { kind: "damaged archive", bytes: damaged_archive(r, &job), flat }
        }
        9 | 10 => {
            let far = if r.once_in(4) { too_far(r, &job) } else { job.clone() };
            Archive { kind: "damaged flat tables", bytes: put(&job), flat: damaged_flat(r, flat(&far)) }
        }
        11 => Archive { kind: "any bytes", bytes: any_bytes(r), flat: any_flat(r, &job) },
        12 => Archive { kind: "any records", bytes: any_records(r, &job), flat: any_flat(r, &job) },
        _ => of_job("sound job", &job),
    }
}

/// As `job` of the generators, on smaller meshes.
fn small_job(r: &mut Random, most: usize) -> Job {
    let coarse = coarse_up_to(r, most);
    let mut job = Job { positions: coarse.positions.concat(), cells: coarse.cells.concat(), steps: Vec::new() };
    let mut table = vec![LEAF; coarse.cells.len()];
    for _ in 0..r.below(6) {
        let layout = examine_table(&coarse, &table).expect("a sound table");
        let marks = marks(r, &layout);
        if let Ok(new) = step(&coarse, &table, &marks) {
            table = new;
            job.steps.push(marked(&marks));
        }
        if table.len() > 200 {
            break;
        }
    }
    job
}

/// A job whose archive has about the most bytes that one may have: marks that do nothing, on coarse cells.
fn long_job(r: &mut Random) -> Job {
    let coarse = coarse_up_to(r, 256);
    let mut job = Job { positions: coarse.positions.concat(), cells: coarse.cells.concat(), steps: Vec::new() };
    let count = coarse.cells.len();
    if count < 50 {
        return job;
    }
    let mut left = MOST_BYTES - 3 + r.below(7) - put(&job).len();
    while left > 0 {
        let marks = ((left - 1) / 4).min(count);
        job.steps.push((0..marks as u16).map(|cell| (cell, 2)).collect());
        left -= 4 * marks + 1;
    }
    job
}

/// Steps without marks up to the limit of bytes and beyond.
fn many_steps(r: &mut Random) -> Job {
    let coarse = coarse_up_to(r, 1);
    let mut job = Job { positions: coarse.positions.concat(), cells: coarse.cells.concat(), steps: Vec::new() };
    let most = *r.pick(&[5, 3000]);
    job.steps = vec![Vec::new(); MOST_BYTES - 2 - put(&job).len() + r.below(most)];
    job
}

fn damaged_flat(r: &mut Random, mut flat: Flat) -> Flat {
    for _ in 0..1 + r.below(2) {
        let any = r.next() as u16;
        let small = r.below(flat.marked.len() + 2) as u16;
        match r.below(9) {
            0 => flat.marked.push(small),
            1 => flat.marks.push(1 + r.below(2) as u8),
            2 => {
                flat.marked.pop();
            }
            3 => {
                flat.ends.pop();
            }
            4 => flat.ends.push(*r.pick(&[small, small, any])),
            5 if !flat.ends.is_empty() => {
                let at = r.below(flat.ends.len());
                flat.ends[at] = *r.pick(&[small, small, small, any]);
            }
            6 => {
                flat.marked.push(small);
                flat.marks.push(1);
            }
            7 => {
                let more = *r.pick(&[1, 65_536]);
                flat.marked.resize(flat.marked.len() + more, 0);
                flat.marks.resize(flat.marks.len() + more, 1);
            }
            _ if !flat.ends.is_empty() => {
                let (at, other) = (r.below(flat.ends.len()), r.below(flat.ends.len()));
                flat.ends.swap(at, other);
            }
            _ => flat.ends.insert(0, small),
        }
    }
    flat
}

/// Any steps, on the job's mesh or on any numbers.
fn any_flat(r: &mut Random, job: &Job) -> Flat {
    let most = *r.pick(&[2, 20, 3000]);
    let mut flat = Flat::default();
    if r.once_in(3) {
        flat.positions = (0..r.below(most)).map(|_| r.next() as i32).collect();
        flat.cells = (0..r.below(most)).map(|_| r.next() as u16).collect();
    } else {
        (flat.positions, flat.cells) = (job.positions.clone(), job.cells.clone());
    }
    let count = r.below(most);
    let reach = *r.pick(&[4, 30, 4097, 65_536]);
    flat.marked = (0..count).map(|_| r.below(reach) as u16).collect();
    flat.marks = (0..count + r.once_in(4) as usize).map(|_| r.next() as u8 % 4).collect();
    flat.ends = (0..r.below(5)).map(|_| r.below(count + 2) as u16).collect();
    if r.once_in(2) {
        flat.ends.sort();
    }
    flat
}

fn any_bytes(r: &mut Random) -> Vec<u8> {
    let most = *r.pick(&[2, 30, 3000, 70_000]);
    let length = r.below(most);
    let few = r.once_in(2);
    (0..length).map(|_| if few { *r.pick(b"VTMGE\0\x01") } else { r.next() as u8 }).collect()
}

/// Whole records, in order mostly, with any numbers.
fn any_records(r: &mut Random, job: &Job) -> Vec<u8> {
    let mut bytes = if r.once_in(2) { put(&Job { steps: Vec::new(), ..job.clone() }) } else { vec![b'E'] };
    bytes.pop();
    for _ in 0..r.below(30) {
        match r.below(24) {
            0 => bytes.extend([vec![b'V'], (0..12).map(|_| r.next() as u8).collect()].concat()),
            1 => bytes.extend([vec![b'T'], (0..8).map(|_| r.next() as u8).collect()].concat()),
            2..=8 => bytes.extend([b'M', r.below(30) as u8, r.once_in(30) as u8, 1 + r.below(2) as u8]),
            9 => bytes.extend([b'M', r.next() as u8, r.next() as u8, r.below(4) as u8]),
            _ => bytes.push(b'G'),
        }
    }
    bytes.extend(*r.pick(&[&b"GE"[..], b"GE", b"GE", b"E", b"", b"EE"]));
    bytes
}
