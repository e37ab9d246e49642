//! Split jobs: one step of a table over 1 to 16 parts, which may run apart and in any order. [`split`] gives the [`Store`] of each part; each is started with
//! the marks of its masters; then messages are fetched and handed over and parts are stepped, whichever call is accepted next, until all are done. Then
//! [`merge`] gives the table of [`step`](crate::step).

use crate::{accepted, lent, Mesh, Refusal, DONE, HELD_LENGTH, MESSAGE_LENGTH, MOST_PARTS, RUNNING, STATUS_LENGTH, STORES_LENGTH, STORE_LENGTH};

/// The store of a part: its numbers, to be kept, copied or sent as they are. docs/PARTS.md says what stands where.
#[derive(Clone, Debug, PartialEq)]
pub struct Store(Vec<u16>);

/// How far a part is.
#[derive(Clone, Copy, Debug, PartialEq, Eq)]
pub enum Stage {
    /// In this round, from 0.
    Running(usize),
    /// Done; beside a refusal, 8 or 9, the part holds its old masters and ghosts.
    Done(Result<(), Refusal>),
}

/// A master or ghost of a part that is done.
#[derive(Clone, Debug, PartialEq, Eq, PartialOrd, Ord)]
pub struct Held {
    /// A ghost, and not a master.
    pub ghost: bool,
    /// Its status.
    pub status: u8,
    /// The coarse cell that it lies in.
    pub coarse: u16,
    /// The child numbers from there down to it, from 0: as many as its level.
    pub children: Vec<u8>,
}

/// A message; its bytes go from part to part as they are.
#[derive(Clone, Debug, PartialEq, Eq)]
pub struct Message(Vec<u8>);

impl Message {
    /// Its bytes.
    pub fn bytes(&self) -> &[u8] {
        &self.0
    }

    /// The part that has written it, from 1.
    pub fn sender(&self) -> u8 {
        self.0[1]
    }

    /// The part that it is for, from 1.
    pub fn receiver(&self) -> u8 {
        self.0[2]
    }
}

impl Store {
    /// A store of numbers that were sent or kept. A call refuses it with 15 where they are too few, and with 16 where they are out of their ranges.
    pub fn from_numbers(numbers: Vec<u16>) -> Store {
        Store(numbers)
    }

    /// Its numbers.
    pub fn numbers(&self) -> &[u16] {
        &self.0
    }

    /// How many parts the job has, as the store says it.
    fn parts(&self) -> usize {
        self.0[2] as usize
    }

    /// Starts the part with a mark for each of its masters, in the order of cells.
    pub fn start(&mut self, marks: &[u8]) -> Result<(), Refusal> {
        accepted(lent::start(&mut self.0, marks))
    }

    /// Leads the part to its next round, and at last to its end.
    pub fn part_step(&mut self) -> Result<(), Refusal> {
        accepted(lent::part_step(&mut self.0))
    }

    /// The next message that the part has written, or `None` where there is none to send.
    pub fn fetch(&mut self) -> Result<Option<Message>, Refusal> {
        let (mut bytes, mut count) = ([0; MESSAGE_LENGTH], 0);
        accepted(lent::fetch(&mut self.0, &mut bytes, &mut count))?;
        Ok((count > 0).then(|| Message(bytes[..count].to_vec())))
    }

    /// Hands a message's bytes over to the part.
    pub fn hand_over(&mut self, bytes: &[u8]) -> Result<(), Refusal> {
        accepted(lent::hand_over(&mut self.0, bytes))
    }

    /// How far the part is.
    pub fn stage(&self) -> Result<Stage, Refusal> {
        let [mut stage, mut round, mut result] = [0; 3];
        accepted(lent::stage(&self.0, &mut stage, &mut round, &mut result))?;
        debug_assert!(stage == RUNNING || stage == DONE);
        Ok(if stage == RUNNING { Stage::Running(round) } else { Stage::Done(accepted(result as u8)) })
    }

    /// The masters and ghosts of the part, once it is done.
    pub fn held(&self) -> Result<Vec<Held>, Refusal> {
        let (mut rows, mut count) = (vec![0; HELD_LENGTH], 0);
        accepted(lent::held(&self.0, &mut rows, &mut count))?;
        let held = |r: &[u16]| Held {
            ghost: r[0] == 1,
            status: r[1] as u8,
            coarse: r[3],
            children: r[4..4 + r[2] as usize].iter().map(|&d| d as u8).collect(),
        };
        Ok(rows[..14 * count].chunks(14).map(held).collect())
    }
}

/// The stores of all parts of a status table, from part 1. `owners` has the part of each cell, from 1; the children of one cell are with one part.
pub fn split(mesh: &Mesh, status: &[u8], parts: usize, owners: &[u8]) -> Result<Vec<Store>, Refusal> {
    let mut stores = vec![0; STORES_LENGTH];
    accepted(lent::split(&mesh.positions, &mesh.cells, status, parts, owners, &mut stores))?;
    Ok(stores.chunks(STORE_LENGTH).take(parts).map(|store| Store(store.to_vec())).collect())
}

/// The table that the stores of all parts make, in any order, once all are done.
pub fn merge(stores: &[Store]) -> Result<Vec<u8>, Refusal> {
    if stores.iter().any(|store| store.0.len() < STORE_LENGTH) {
        return Err(Refusal::SHORT);
    }
    if stores.len() > MOST_PARTS || stores.iter().any(|store| store.parts() != stores.len()) {
        return Err(Refusal::STORE);
    }
    let mut all: Vec<u16> = stores.iter().flat_map(|store| &store.0[..STORE_LENGTH]).copied().collect();
    all.resize(STORES_LENGTH, 0);
    let (mut table, mut cells) = (vec![0; STATUS_LENGTH], 0);
    accepted(lent::merge(&all, &mut table, &mut cells))?;
    table.truncate(cells);
    Ok(table)
}
