//! Cutting one cell: the families of the 64 patterns, from the heights rule.

use crate::Refusal;

/// The two local corners (from 0) of each edge: 12, 13, 14, 23, 24, 34.
pub const EDGES: [(usize, usize); 6] = [(0, 1), (0, 2), (0, 3), (1, 2), (1, 3), (2, 3)];

/// The digit of each local corner.
pub const CORNER_DIGIT: [usize; 4] = [0, 4, 7, 9];

/// The digit of each edge's midpoint, in edge order.
pub const MIDPOINT_DIGIT: [usize; 6] = [1, 2, 3, 5, 6, 8];

const CORNER_HEIGHT: [i64; 4] = [110, 120, 130, 140];
/// In edge order: 12, 13, 14, 23, 24, 34.
const MIDPOINT_HEIGHT: [i64; 6] = [1, 0, 2, 2, 0, 1];

/// A local point: its digit, twice its weights on the four local corners, its height.
#[derive(Clone, Copy)]
struct Point {
    digit: usize,
    place: [i64; 4],
    height: i64,
}

thread_local! {
    static TABLE: Vec<Vec<[u8; 4]>> = (0..64).map(by_heights).collect();
}

/// The children of a cell with this pattern, each as its four digits.
pub fn family(pattern: u8) -> Result<Vec<[u8; 4]>, Refusal> {
    TABLE.with(|table| table.get(pattern as usize).cloned().ok_or(6))
}

/// The corners, and the midpoints of the split edges, by rising digit.
fn present(pattern: u8) -> Vec<Point> {
    let mut points = Vec::new();
    for k in 0..4 {
        let mut place = [0; 4];
        place[k] = 2;
        points.push(Point { digit: CORNER_DIGIT[k], place, height: CORNER_HEIGHT[k] });
    }
    for (e, (a, b)) in EDGES.into_iter().enumerate() {
        if pattern >> e & 1 == 1 {
            let mut place = [0; 4];
            place[a] = 1;
            place[b] = 1;
            points.push(Point { digit: MIDPOINT_DIGIT[e], place, height: MIDPOINT_HEIGHT[e] });
        }
    }
    points.sort_by_key(|p| p.digit);
    points
}

fn by_heights(pattern: u8) -> Vec<[u8; 4]> {
    let points = present(pattern);
    let n = points.len();
    let mut children = Vec::new();
    for a in 0..n {
        for b in a + 1..n {
            for c in b + 1..n {
                for d in c + 1..n {
                    let four = [points[a], points[b], points[c], points[d]];
                    if is_child(&four, &points) {
                        children.push(four.map(|p| p.digit as u8));
                    }
                }
            }
        }
    }
    children
}

fn is_child(four: &[Point; 4], points: &[Point]) -> bool {
    let whole = determinant(four.map(|p| p.place));
    if whole == 0 {
        return false;
    }
    points.iter().filter(|p| four.iter().all(|q| q.digit != p.digit)).all(|p| {
        // Cramer: p is the sum of (part / whole) * place over the four, so the
        // affine function through the four has the like sum of heights at p.
        let mut value_times_whole = 0;
        for k in 0..4 {
            let mut rows = four.map(|q| q.place);
            rows[k] = p.place;
            value_times_whole += determinant(rows) * four[k].height;
        }
        let above = (p.height * whole - value_times_whole) * whole.signum();
        assert!(above != 0, "no tie occurs");
        above > 0
    })
}

fn determinant(rows: [[i64; 4]; 4]) -> i64 {
    // Along the first row.
    (0..4)
        .map(|k| {
            let minor = [1, 2, 3].map(|i| {
                let left: Vec<i64> = (0..4).filter(|&j| j != k).map(|j| rows[i][j]).collect();
                [left[0], left[1], left[2]]
            });
            let sign = if k % 2 == 0 { 1 } else { -1 };
            sign * rows[0][k] * determinant3(minor)
        })
        .sum()
}

fn determinant3(m: [[i64; 3]; 3]) -> i64 {
    m[0][0] * (m[1][1] * m[2][2] - m[1][2] * m[2][1])
        - m[0][1] * (m[1][0] * m[2][2] - m[1][2] * m[2][0])
        + m[0][2] * (m[1][0] * m[2][1] - m[1][1] * m[2][0])
}
