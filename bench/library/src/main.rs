//! Makes the steps of each case by the library's `yd_step` (see `plain::run`).

use yuccadice::lent;

fn main() {
    plain::run::steps(|case, status, marks, table| {
        let mut count = 0;
        match lent::step(&case.positions, &case.cells, status, marks, table, &mut count) {
            0 => Ok(count),
            number => Err(number),
        }
    });
}
