//! Makes the archives of the benchmark: `archives DIRECTORY`. Prints a line for each: its name, steps, and cells at the end.
//!
//! - `refined`: a mesh refined at random leaves to about 1,800 cells, then 2,000 empty steps
//! - `coarse`: 256 coarse cells at rest, 2,000 empty steps
//! - `marked`: 256 coarse cells, 1,000 steps that refine up to three leaves, or where there are 900 cells delete up to three
//!   families
//!
//! Beside each stands `NAME.listing`, as the independent program lists it.

use independent::archive::{listing, put, replay, Job};
use independent::mesh::{children, examine_table, Coarse, Layout, LEAF, RED, TOP_LEVEL};
use independent::random::{coarse_up_to, marked, Random};
use independent::step::step;

const EMPTY_STEPS: usize = 2000;
const MARKED_STEPS: usize = 1000;

fn main() {
    let directory = std::env::args().nth(1).expect("a directory");
    let mut r = Random::new(1);
    let mut refined = refined(&mut r, 1800);
    refined.steps.extend(vec![Vec::new(); EMPTY_STEPS]);
    let mesh = mesh_of(&mut r, 256);
    let mut coarse = job(&mesh);
    coarse.steps = vec![Vec::new(); EMPTY_STEPS];
    let marked = with_marks(&mut r, &mesh);
    for (name, job) in [("refined", refined), ("coarse", coarse), ("marked", marked)] {
        let bytes = put(&job);
        let (_, table) = replay(&bytes).expect("an archive that is accepted");
        println!("{name} {} {}", job.steps.len(), table.len());
        std::fs::write(format!("{directory}/{name}.listing"), listing(&bytes)).expect("a file can be written");
        std::fs::write(format!("{directory}/{name}"), bytes).expect("a file can be written");
    }
}

fn job(mesh: &Coarse) -> Job {
    Job { positions: mesh.positions.concat(), cells: mesh.cells.concat(), steps: Vec::new() }
}

/// A random mesh of so many cells, most of which share faces or edges.
fn mesh_of(r: &mut Random, cells: usize) -> Coarse {
    loop {
        let mesh = coarse_up_to(r, cells);
        if mesh.cells.len() == cells && mesh.positions.len() < 2 * cells {
            return mesh;
        }
    }
}

/// So many leaves below the top level refined, at random.
fn refine(r: &mut Random, layout: &Layout, count: usize, marks: &mut [u8]) {
    let fits = |i: &usize| layout.cells[*i].status == LEAF && layout.cells[*i].level < TOP_LEVEL;
    let leaves: Vec<usize> = (0..marks.len()).filter(fits).collect();
    for _ in 0..count {
        marks[*r.pick(&leaves)] = 1;
    }
}

/// A job that ends with at most so many cells, and nearly so many.
fn refined(r: &mut Random, most: usize) -> Job {
    let mesh = mesh_of(r, 40);
    let mut job = job(&mesh);
    let mut table = vec![LEAF; mesh.cells.len()];
    while table.len() < most * 97 / 100 {
        let layout = examine_table(&mesh, &table).expect("a step gives a sound table");
        let mut marks = vec![0; table.len()];
        refine(r, &layout, 1 + (most - table.len()) / 60, &mut marks);
        if let Some(new) = step(&mesh, &table, &marks).ok().filter(|new| new.len() <= most) {
            job.steps.push(marked(&marks));
            table = new;
        }
    }
    job
}

fn with_marks(r: &mut Random, mesh: &Coarse) -> Job {
    let mut job = job(mesh);
    let mut table = vec![LEAF; mesh.cells.len()];
    while job.steps.len() < MARKED_STEPS {
        let layout = examine_table(mesh, &table).expect("a step gives a sound table");
        let mut marks = vec![0; table.len()];
        if table.len() < 900 {
            let count = 1 + r.below(3);
            refine(r, &layout, count, &mut marks);
        } else {
            // The last ones: no finer cell keeps them.
            let leaves = |family: &Vec<usize>| family.iter().all(|&k| table[k] == LEAF);
            let children = children(&layout);
            let families = (0..table.len()).filter(|&i| table[i] == RED && leaves(&children[i]));
            for family in families.rev().take(3) {
                for &k in &children[family] {
                    marks[k] = 2;
                }
            }
        }
        table = step(mesh, &table, &marks).expect("few cells");
        job.steps.push(marked(&marks));
    }
    job
}
