//! Makes the steps of each case by the plain program (see `plain::run`). With the word `trusted` it examines nothing.

use plain::run;
use plain::step::Stepper;

fn main() {
    let mut stepper = Stepper::new();
    if std::env::args().nth(1).is_some_and(|word| word == "trusted") {
        run::steps(|case, status, marks, table| stepper.step_trusted(&case.positions, &case.cells, status, marks, table));
    } else {
        run::steps(|case, status, marks, table| stepper.step(&case.positions, &case.cells, status, marks, table));
    }
}
