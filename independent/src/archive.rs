//! Archives of a mesh and its steps, and their listing.

use crate::mesh::{counts, examine_mesh, examine_table, Coarse, LEAF};
use crate::step::step;
use crate::Refusal;

pub const MOST_BYTES: usize = 65_536;

#[derive(Clone, Debug, Default, PartialEq)]
pub struct Job {
    /// Three numbers a corner.
    pub positions: Vec<i32>,
    /// Four numbers a cell.
    pub cells: Vec<u16>,
    /// For each step its marked cells and their marks.
    pub steps: Vec<Vec<(u16, u8)>>,
}

/// Refusal 17 for the form, then the mesh, then steps in turn.
pub fn read(bytes: &[u8]) -> Result<Job, Refusal> {
    let job = form(bytes).ok_or(17)?;
    run(&job)?;
    Ok(job)
}

/// The mesh, then steps in turn, last refusal 17 where the bytes are too many.
pub fn write(job: &Job) -> Result<Vec<u8>, Refusal> {
    run(job)?;
    let bytes = put(job);
    if bytes.len() > MOST_BYTES {
        return Err(17);
    }
    Ok(bytes)
}

/// A job as a program is lent it. One entry a mark, and for each step how many marks stand up to its end.
#[derive(Clone, Debug, Default, PartialEq)]
pub struct Flat {
    pub positions: Vec<i32>,
    pub cells: Vec<u16>,
    pub marked: Vec<u16>,
    pub marks: Vec<u8>,
    pub ends: Vec<u16>,
}

pub fn flatten(job: &Job) -> Flat {
    let mut flat = Flat { positions: job.positions.clone(), cells: job.cells.clone(), ..Flat::default() };
    for &(cell, mark) in job.steps.iter().flatten() {
        flat.marked.push(cell);
        flat.marks.push(mark);
    }
    let mut end = 0;
    for marked in &job.steps {
        end += marked.len();
        flat.ends.push(end.try_into().expect("few marks"));
    }
    flat
}

/// The same as `write`. Marked cells and marks of different numbers are refused with 7 after the mesh; so is a step whose end
/// is before its start or behind the last mark, and a mark behind the last step, in the turn of the steps.
pub fn write_flat(flat: &Flat) -> Result<Vec<u8>, Refusal> {
    let mut job = Job { positions: flat.positions.clone(), cells: flat.cells.clone(), steps: Vec::new() };
    let mut start = 0;
    let mut fits = flat.marked.len() == flat.marks.len();
    for &end in &flat.ends {
        let step = start..end as usize;
        fits &= step.start <= step.end && step.end <= flat.marked.len();
        if !fits {
            break;
        }
        start = step.end;
        job.steps.push(flat.marked[step.clone()].iter().copied().zip(flat.marks[step].iter().copied()).collect());
    }
    if !fits || start < flat.marked.len() {
        run(&job)?;
        return Err(7);
    }
    write(&job)
}

/// The mesh and the status table after all steps of an archive.
pub fn replay(bytes: &[u8]) -> Result<(Coarse, Vec<u8>), Refusal> {
    run(&form(bytes).ok_or(17)?)
}

/// What meshlist prints.
pub fn listing(bytes: &[u8]) -> Vec<u8> {
    let layout = replay(bytes).and_then(|(coarse, table)| examine_table(&coarse, &table));
    let text = match layout {
        Err(number) => format!("refused {number}\n"),
        Ok(layout) => {
            let mut text = String::from("level cells red green leaf\n");
            for (level, [cells, red, green, leaf]) in counts(&layout).into_iter().enumerate() {
                text += &format!("{level} {cells} {red} {green} {leaf}\n");
            }
            text
        }
    };
    text.into_bytes()
}

/// Examines the mesh and does the steps.
fn run(job: &Job) -> Result<(Coarse, Vec<u8>), Refusal> {
    let coarse = examine_mesh(&job.positions, &job.cells)?;
    let mut table = vec![LEAF; coarse.cells.len()];
    for marked in &job.steps {
        let marks = spread(marked, table.len()).ok_or(7)?;
        table = step(&coarse, &table, &marks)?;
    }
    Ok((coarse, table))
}

/// One mark a cell; None where cells do not ascend strictly, a cell is not
/// below the count or a mark is not 1 or 2.
fn spread(marked: &[(u16, u8)], cells: usize) -> Option<Vec<u8>> {
    let mut marks = vec![0; cells];
    let mut last = None;
    for &(cell, mark) in marked {
        if last >= Some(cell) || !(1..=2).contains(&mark) {
            return None;
        }
        *marks.get_mut(cell as usize)? = mark;
        last = Some(cell);
    }
    Some(marks)
}

/// An archive's bytes, nothing examined.
pub fn put(job: &Job) -> Vec<u8> {
    let mut bytes = Vec::new();
    for position in job.positions.chunks(3) {
        bytes.push(b'V');
        bytes.extend(position.iter().flat_map(|x| x.to_le_bytes()));
    }
    for cell in job.cells.chunks(4) {
        bytes.push(b'T');
        bytes.extend(cell.iter().flat_map(|k| k.to_le_bytes()));
    }
    for marked in &job.steps {
        for (cell, mark) in marked {
            bytes.push(b'M');
            bytes.extend(cell.to_le_bytes());
            bytes.push(*mark);
        }
        bytes.push(b'G');
    }
    bytes.push(b'E');
    bytes
}

/// The content of bytes that have an archive's form, else None.
pub fn form(bytes: &[u8]) -> Option<Job> {
    if bytes.len() > MOST_BYTES {
        return None;
    }
    let mut rest = bytes;
    let mut job = Job::default();
    // The marks since the last G.
    let mut marked: Vec<(u16, u8)> = Vec::new();
    loop {
        let no_mark_or_step = marked.is_empty() && job.steps.is_empty();
        match take::<1>(&mut rest)? {
            [b'V'] if job.cells.is_empty() && no_mark_or_step => {
                for _ in 0..3 {
                    job.positions.push(i32::from_le_bytes(take(&mut rest)?));
                }
            }
            [b'T'] if no_mark_or_step => {
                for _ in 0..4 {
                    job.cells.push(u16::from_le_bytes(take(&mut rest)?));
                }
            }
            [b'M'] => {
                let cell = u16::from_le_bytes(take(&mut rest)?);
                let [mark] = take(&mut rest)?;
                let ascends = marked.last().map_or(true, |&(last, _)| last < cell);
                if !ascends || !(1..=2).contains(&mark) {
                    return None;
                }
                marked.push((cell, mark));
            }
            [b'G'] => job.steps.push(std::mem::take(&mut marked)),
            [b'E'] if marked.is_empty() && rest.is_empty() => return Some(job),
            _ => return None,
        }
    }
}

fn take<const N: usize>(rest: &mut &[u8]) -> Option<[u8; N]> {
    let first = rest.get(..N)?.try_into().ok()?;
    *rest = &rest[N..];
    Some(first)
}
