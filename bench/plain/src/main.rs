//! Lays out each case as often as it asks, and prints its numbers of cells and corners, or `refused ` and the number.

use plain::input;
use plain::layout::{Layout, Layouter};
use std::hint::black_box;
use std::io::Read;

fn main() {
    let mut bytes = Vec::new();
    std::io::stdin().read_to_end(&mut bytes).expect("standard input can be read");
    let Some(cases) = input::read(&bytes) else {
        eprintln!("the input is cut short");
        std::process::exit(1);
    };
    let mut layouter = Layouter::new();
    let mut layout = Layout::default();
    for case in &cases {
        let mut answer = Ok(());
        for _ in 0..case.repeat {
            let case = black_box(case);
            answer = layouter.lay_out(&case.positions, &case.cells, &case.status, &mut layout);
            black_box(&layout);
        }
        match answer {
            Ok(()) => println!("{} {}", layout.cells.len(), layout.ends.len()),
            Err(number) => println!("refused {number}"),
        }
    }
}
