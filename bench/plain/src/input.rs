//! Cases on standard input, as crates/try_tables and crates/try_steps read them. All numbers have their least byte first; 65535
//! ends the input.
//!
//! A case of the layout is seven u16 (np, nc, ns, cell, corner, short, repeat), then np i32, nc u16 and ns bytes.
//! A case of steps is five u16 (np, nc, ns, steps, repeat), then np i32, nc u16 and ns bytes, then for each step two u16
//! (nm, short) and nm bytes.

pub const END: u16 = 65535;

#[derive(Clone, Debug, Default, PartialEq)]
pub struct Case {
    pub positions: Vec<i32>,
    pub cells: Vec<u16>,
    pub status: Vec<u8>,
    /// What the proved program is asked beside the layout; not used here.
    pub cell: u16,
    pub corner: u16,
    pub short: u16,
    /// How often the case is laid out.
    pub repeat: u16,
}

#[derive(Clone, Debug, Default, PartialEq)]
pub struct Steps {
    pub positions: Vec<i32>,
    pub cells: Vec<u16>,
    pub status: Vec<u8>,
    pub steps: Vec<Step>,
    /// How often each step is made.
    pub repeat: u16,
}

#[derive(Clone, Debug, Default, PartialEq)]
pub struct Step {
    pub marks: Vec<u8>,
    /// 1 where the lent table is short by one.
    pub short: u16,
}

/// None where the input is cut short.
pub fn read(bytes: &[u8]) -> Option<Vec<Case>> {
    read_all(bytes, |rest, np| {
        let [nc, ns, cell, corner, short, repeat] = numbers(rest)?;
        let (positions, cells, status) = lists(rest, [np, nc, ns])?;
        Some(Case { positions, cells, status, cell, corner, short, repeat })
    })
}

/// None where the input is cut short.
pub fn read_steps(bytes: &[u8]) -> Option<Vec<Steps>> {
    read_all(bytes, |rest, np| {
        let [nc, ns, steps, repeat] = numbers(rest)?;
        let (positions, cells, status) = lists(rest, [np, nc, ns])?;
        let step = |rest: &mut &[u8]| {
            let [nm, short] = numbers(rest)?;
            Some(Step { marks: take(rest, nm as usize)?.to_vec(), short })
        };
        let steps = (0..steps).map(|_| step(rest)).collect::<Option<_>>()?;
        Some(Steps { positions, cells, status, steps, repeat })
    })
}

/// Cases up to the end; each is read from what follows its first number.
fn read_all<T>(bytes: &[u8], mut case: impl FnMut(&mut &[u8], u16) -> Option<T>) -> Option<Vec<T>> {
    let mut rest = bytes;
    let mut cases = Vec::new();
    loop {
        let [np] = numbers(&mut rest)?;
        if np == END {
            return Some(cases);
        }
        cases.push(case(&mut rest, np)?);
    }
}

fn numbers<const N: usize>(rest: &mut &[u8]) -> Option<[u16; N]> {
    let bytes = take(rest, 2 * N)?;
    Some(std::array::from_fn(|k| u16::from_le_bytes([bytes[2 * k], bytes[2 * k + 1]])))
}

/// Positions, cells and statuses, of these lengths.
fn lists(rest: &mut &[u8], [np, nc, ns]: [u16; 3]) -> Option<(Vec<i32>, Vec<u16>, Vec<u8>)> {
    let four = |b: &[u8]| i32::from_le_bytes([b[0], b[1], b[2], b[3]]);
    let positions = take(rest, 4 * np as usize)?.chunks(4).map(four).collect();
    let two = |b: &[u8]| u16::from_le_bytes([b[0], b[1]]);
    let cells = take(rest, 2 * nc as usize)?.chunks(2).map(two).collect();
    Some((positions, cells, take(rest, ns as usize)?.to_vec()))
}

fn take<'a>(rest: &mut &'a [u8], n: usize) -> Option<&'a [u8]> {
    let (head, tail) = rest.split_at_checked(n)?;
    *rest = tail;
    Some(head)
}

/// The bytes that `read` reads.
pub fn write(cases: &[Case]) -> Vec<u8> {
    let mut bytes = Vec::new();
    for c in cases {
        put(&mut bytes, &c.positions, &c.cells, &c.status, &[c.cell, c.corner, c.short, c.repeat]);
    }
    bytes.extend(END.to_le_bytes());
    bytes
}

/// The bytes that `read_steps` reads.
pub fn write_steps(cases: &[Steps]) -> Vec<u8> {
    let mut bytes = Vec::new();
    for c in cases {
        put(&mut bytes, &c.positions, &c.cells, &c.status, &[c.steps.len() as u16, c.repeat]);
        for step in &c.steps {
            bytes.extend((step.marks.len() as u16).to_le_bytes());
            bytes.extend(step.short.to_le_bytes());
            bytes.extend(&step.marks);
        }
    }
    bytes.extend(END.to_le_bytes());
    bytes
}

/// A header and its lists.
fn put(bytes: &mut Vec<u8>, positions: &[i32], cells: &[u16], status: &[u8], more: &[u16]) {
    let lengths = [positions.len(), cells.len(), status.len()].map(|n| n as u16);
    bytes.extend(lengths.iter().chain(more).flat_map(|n| n.to_le_bytes()));
    bytes.extend(positions.iter().flat_map(|x| x.to_le_bytes()));
    bytes.extend(cells.iter().flat_map(|x| x.to_le_bytes()));
    bytes.extend(status);
}
