//! Listing an archive: its form is read in one pass, the mesh is examined once, and the steps are made one after the other on
//! a table that is trusted then.

use crate::layout::{MOST_CELLS, RED};
use crate::mesh;
use crate::step::Stepper;
use crate::Refusal;
use std::io::Write;

pub const MOST_BYTES: usize = 65_536;

/// An archive's mesh and its steps, and the tables that listing works in.
pub struct Lister {
    stepper: Stepper,
    positions: Vec<i32>,
    cells: Vec<u16>,
    marked: Vec<(u16, u8)>,
    /// How many marks stand up to the end of each step.
    ends: Vec<u32>,
    marks: Vec<u8>,
    status: Vec<u8>,
    new: Vec<u8>,
}

impl Lister {
    pub fn new() -> Lister {
        Lister {
            stepper: Stepper::new(),
            positions: Vec::new(),
            cells: Vec::new(),
            marked: Vec::new(),
            ends: Vec::new(),
            marks: Vec::new(),
            status: Vec::with_capacity(MOST_CELLS),
            new: vec![0; MOST_CELLS],
        }
    }

    /// The listing of an archive, as meshlist prints it.
    pub fn list(&mut self, bytes: &[u8]) -> Vec<u8> {
        let mut out = Vec::with_capacity(512);
        match self.replay(bytes) {
            Ok(()) => self.write_levels(&mut out),
            Err(number) => writeln!(out, "refused {number}").expect("room"),
        }
        out
    }

    /// Refusal 17 for the form, then the mesh, then steps in turn.
    fn replay(&mut self, bytes: &[u8]) -> Result<(), Refusal> {
        if bytes.len() > MOST_BYTES || !self.read(bytes) {
            return Err(17);
        }
        let Lister { stepper, positions, cells, marked, ends, marks, status, new, .. } = self;
        mesh::examine(positions, cells, stepper.faces())?;
        status.clear();
        status.resize(cells.len() / 4, 0);
        let mut start = 0;
        for &end in ends.iter() {
            marks.clear();
            marks.resize(status.len(), 0);
            for &(cell, mark) in &marked[start..end as usize] {
                if status.get(cell as usize) != Some(&0) {
                    return Err(7);
                }
                marks[cell as usize] = mark;
            }
            let count = stepper.step_trusted(positions, cells, status, marks, new)?;
            status.clear();
            status.extend_from_slice(&new[..count]);
            start = end as usize;
        }
        Ok(())
    }

    /// Takes the records apart; false where the bytes are not in the form.
    fn read(&mut self, bytes: &[u8]) -> bool {
        self.positions.clear();
        self.cells.clear();
        self.marked.clear();
        self.ends.clear();
        let mut rest = bytes;
        while let [b'V', a, b, c, d, e, f, g, h, i, j, k, l, tail @ ..] = rest {
            self.positions.extend([[a, b, c, d], [e, f, g, h], [i, j, k, l]].map(|x| i32::from_le_bytes(x.map(|y| *y))));
            rest = tail;
        }
        while let [b'T', a, b, c, d, e, f, g, h, tail @ ..] = rest {
            self.cells.extend([[a, b], [c, d], [e, f], [g, h]].map(|x| u16::from_le_bytes(x.map(|y| *y))));
            rest = tail;
        }
        // The least cell that the next mark may have.
        let mut least = 0;
        loop {
            match rest {
                [b'M', a, b, mark @ 1..=2, tail @ ..] => {
                    let cell = u16::from_le_bytes([*a, *b]);
                    if (cell as u32) < least {
                        return false;
                    }
                    least = cell as u32 + 1;
                    self.marked.push((cell, *mark));
                    rest = tail;
                }
                [b'G', tail @ ..] => {
                    least = 0;
                    self.ends.push(self.marked.len() as u32);
                    rest = tail;
                }
                [b'E'] => return least == 0,
                _ => return false,
            }
        }
    }

    /// Header, and a line for each level.
    fn write_levels(&self, out: &mut Vec<u8>) {
        out.extend(b"level cells red green leaf\n");
        let (mut level, mut first, mut last) = (0, 0, self.cells.len() / 4);
        while first < last {
            let (mut red, mut leaf, mut next) = (0, 0, last);
            for &s in &self.status[first..last] {
                red += (s == RED) as usize;
                leaf += (s == 0) as usize;
                next += self.stepper.sizes[s as usize] as usize;
            }
            let cells = last - first;
            writeln!(out, "{level} {cells} {red} {} {leaf}", cells - red - leaf).expect("room");
            (level, first, last) = (level + 1, last, next);
        }
    }
}

impl Default for Lister {
    fn default() -> Lister {
        Lister::new()
    }
}
