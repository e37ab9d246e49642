//! Times steps that are made once, so that the processor has not seen their branches before: `library_once plain|proved`. The input is that of the
//! steps (`generate`), whose repeat counts are passed over. Prints the number of cells before all steps and the nanoseconds a cell.

use plain::step::Stepper;
use std::io::Read;
use std::time::Instant;
use yuccadice::lent;

fn main() {
    let proved = match std::env::args().nth(1).as_deref() {
        Some("plain") => false,
        Some("proved") => true,
        _ => panic!("usage: library_once plain|proved"),
    };
    let mut bytes = Vec::new();
    std::io::stdin().read_to_end(&mut bytes).expect("standard input can be read");
    let cases = plain::input::read_steps(&bytes).expect("the input is whole");
    let mut stepper = Stepper::new();
    let mut table = vec![0; plain::layout::MOST_CELLS];
    let (mut nanoseconds, mut cells) = (0, 0);
    for case in &cases {
        let mut status = case.status.clone();
        for one in &case.steps {
            let begun = Instant::now();
            let count = if proved {
                let mut count = 0;
                let number = lent::step(&case.positions, &case.cells, &status, &one.marks, &mut table, &mut count);
                assert_eq!(number, 0);
                count
            } else {
                stepper.step(&case.positions, &case.cells, &status, &one.marks, &mut table).expect("the step is accepted")
            };
            nanoseconds += begun.elapsed().as_nanos();
            cells += status.len();
            status.clear();
            status.extend_from_slice(&table[..count]);
        }
    }
    println!("{cells} {:.1}", nanoseconds as f64 / cells as f64);
}
