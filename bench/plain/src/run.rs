//! Runs a program's step over the cases on standard input.

use crate::input::{self, Steps};
use crate::layout::MOST_CELLS;
use crate::Refusal;
use std::hint::black_box;
use std::io::Read;

fn turn(sum: u64, x: u64) -> u64 {
    (sum * 48_271 + x) % 2_147_483_647
}

/// What the table holds before a step.
fn fill(table: &mut [u8]) {
    let mut x = 1;
    for byte in table {
        *byte = x as u8;
        x = turn(x, 1);
    }
}

/// Makes the steps of each case, each as often as the case asks, and prints for each the refusal's number or 0, the number of
/// cells, and a checksum of the table that the step was lent: the first three fields of a line of crates/try_steps. `step` is given
/// the case's mesh, a status table, marks and the lent table.
pub fn steps(mut step: impl FnMut(&Steps, &[u8], &[u8], &mut [u8]) -> Result<usize, Refusal>) {
    let mut bytes = Vec::new();
    std::io::stdin().read_to_end(&mut bytes).expect("standard input can be read");
    let Some(cases) = input::read_steps(&bytes) else {
        eprintln!("the input is cut short");
        std::process::exit(1);
    };
    let mut table = vec![0; MOST_CELLS];
    for case in &cases {
        let mut status = case.status.clone();
        for one in &case.steps {
            fill(&mut table);
            let lent = MOST_CELLS - (one.short == 1) as usize;
            let mut answer = Err(0);
            for _ in 0..case.repeat.max(1) {
                let (case, status, marks) = black_box((case, &status, &one.marks));
                let table = &mut table[..lent];
                answer = step(case, status, marks, table);
                black_box(table);
            }
            let sum = table.iter().fold(1, |sum, &x| turn(sum, x as u64));
            match answer {
                Ok(n) => {
                    println!("0 {n} {sum}");
                    status.clear();
                    status.extend_from_slice(&table[..n]);
                }
                Err(number) => println!("{number} 0 {sum}"),
            }
        }
    }
}
