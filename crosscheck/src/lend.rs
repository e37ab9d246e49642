//! Tables and numbers to lend: filled with random numbers before a call, compared whole after it.

use independent::random::Random;

pub trait Number: Copy + PartialEq {
    fn from(bits: u64) -> Self;
}

impl Number for u8 {
    fn from(bits: u64) -> u8 {
        bits as u8
    }
}

impl Number for u16 {
    fn from(bits: u64) -> u16 {
        bits as u16
    }
}

impl Number for i32 {
    fn from(bits: u64) -> i32 {
        bits as i32
    }
}

/// Numbers before and behind the lent part, which must stay as they were too.
const MARGIN: usize = 16;

pub struct Lent<T> {
    held: Vec<T>,
    expected: Vec<T>,
    full: usize,
}

impl<T: Number> Lent<T> {
    /// Of the full length or longer, or shorter where that is asked.
    pub fn new(r: &mut Random, full: usize, short: bool) -> Lent<T> {
        let length = match (short, r.below(4)) {
            (true, 0) => 0,
            (true, 1) => full - 1,
            (true, _) => r.below(full),
            (false, 0) => full + 1 + r.below(100),
            (false, _) => full,
        };
        let held: Vec<T> = (0..length + 2 * MARGIN).map(|_| T::from(r.next())).collect();
        Lent { expected: held.clone(), held, full }
    }

    pub fn table(&mut self) -> &mut [T] {
        let end = self.held.len() - MARGIN;
        &mut self.held[MARGIN..end]
    }

    pub fn short(&self) -> bool {
        self.held.len() - 2 * MARGIN < self.full
    }

    /// What an accepted call writes in front.
    pub fn expect(&mut self, front: &[T]) {
        self.expected[MARGIN..MARGIN + front.len()].copy_from_slice(front);
    }

    pub fn right(&self) -> bool {
        self.held == self.expected
    }
}

/// Whether the lent table k of n is to be short: in one call of eight one of them is, now and then two.
pub fn shorts<const N: usize>(r: &mut Random) -> [bool; N] {
    let mut short = [false; N];
    if r.once_in(8) {
        short[r.below(N)] = true;
        short[r.below(N)] |= r.once_in(4);
    }
    short
}

/// Numbers that a call may change.
pub fn numbers<const N: usize>(r: &mut Random) -> [usize; N] {
    [0; N].map(|_| r.next() as usize)
}
