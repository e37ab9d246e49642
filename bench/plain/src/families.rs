//! The families of the 64 patterns, computed once from the heights rule.

/// The two local corners (from 0) of each edge: 12, 13, 14, 23, 24, 34.
pub const EDGES: [(usize, usize); 6] = [(0, 1), (0, 2), (0, 3), (1, 2), (1, 3), (2, 3)];

/// The digits of the corners, and of the midpoints in edge order.
pub const CORNER: [usize; 4] = [0, 4, 7, 9];
pub const MIDPOINT: [usize; 6] = [1, 2, 3, 5, 6, 8];

const CORNER_HEIGHT: [i64; 4] = [110, 120, 130, 140];
const MIDPOINT_HEIGHT: [i64; 6] = [1, 0, 2, 2, 0, 1];

/// The children of one pattern.
#[derive(Clone, Default)]
pub struct Family {
    /// Each child as its four digits; none for a leaf.
    pub children: Vec<[u8; 4]>,
    /// The edges of the children, each once, that are not the cell's own.
    pub inner: Vec<[u8; 2]>,
}

/// Row p has pattern p, and row 64 is red: cut as 63.
pub fn families() -> Vec<Family> {
    let mut families: Vec<Family> = (0..64).map(family).collect();
    families.push(families[63].clone());
    families
}

fn family(pattern: u8) -> Family {
    if pattern == 0 {
        return Family::default();
    }
    let children = cut(pattern);
    let mut inner: Vec<[u8; 2]> =
        children.iter().flat_map(|c| EDGES.map(|(a, b)| [c[a], c[b]])).collect();
    inner.retain(|e| !e.iter().all(|&d| CORNER.contains(&(d as usize))));
    inner.sort();
    inner.dedup();
    Family { children, inner }
}

/// A local point in the reference cell with corners at the origin and at 2 on each axis.
#[derive(Clone, Copy)]
struct Point {
    digit: u8,
    at: [i64; 3],
    height: i64,
}

fn cut(pattern: u8) -> Vec<[u8; 4]> {
    let mut points = Vec::new();
    for k in 0..4 {
        points.push(Point { digit: CORNER[k] as u8, at: place(k, k), height: CORNER_HEIGHT[k] });
    }
    for (e, (a, b)) in EDGES.into_iter().enumerate() {
        if pattern >> e & 1 == 1 {
            points.push(Point { digit: MIDPOINT[e] as u8, at: place(a, b), height: MIDPOINT_HEIGHT[e] });
        }
    }
    points.sort_by_key(|p| p.digit);
    let mut children = Vec::new();
    for d in 0..points.len() {
        for c in 0..d {
            for b in 0..c {
                for a in 0..b {
                    let four = [points[a], points[b], points[c], points[d]];
                    if is_child(four, &points) {
                        children.push(four.map(|p| p.digit));
                    }
                }
            }
        }
    }
    children.sort();
    children
}

/// The middle of two local corners.
fn place(a: usize, b: usize) -> [i64; 3] {
    [1, 2, 3].map(|k| (a == k) as i64 + (b == k) as i64)
}

/// Whether all other points lie above the affine function through the four, and these not in one plane.
fn is_child(four: [Point; 4], points: &[Point]) -> bool {
    let from = |p: Point| [0, 1, 2].map(|k| p.at[k] - four[0].at[k]);
    let [u, v, w] = [from(four[1]), from(four[2]), from(four[3])];
    let volume = determinant(u, v, w);
    volume != 0
        && points.iter().filter(|p| four.iter().all(|q| q.digit != p.digit)).all(|&p| {
            let x = from(p);
            let parts = [determinant(x, v, w), determinant(u, x, w), determinant(u, v, x)];
            let rise: i64 = (0..3).map(|k| parts[k] * (four[k + 1].height - four[0].height)).sum();
            ((p.height - four[0].height) * volume - rise) * volume.signum() > 0
        })
}

pub fn determinant(a: [i64; 3], b: [i64; 3], c: [i64; 3]) -> i64 {
    a[0] * (b[1] * c[2] - b[2] * c[1]) - a[1] * (b[0] * c[2] - b[2] * c[0])
        + a[2] * (b[0] * c[1] - b[1] * c[0])
}
