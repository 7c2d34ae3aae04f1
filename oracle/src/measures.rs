//! Document 01's three measures, in whole numbers wide enough for everything.

pub const LIMIT: i32 = 1_000_000;

/// A point and a box, axis by axis.
pub type Point = [i32; 2];
pub type Sides = [(i32, i32); 2];

pub fn in_range(p: i32) -> bool {
    (-LIMIT..=LIMIT).contains(&p)
}

fn squared(a: i32, b: i32) -> u64 {
    let d = (a as i64).abs_diff(b as i64);
    d * d
}

/// MINDIST: Definition 2 of document 001.
pub fn mindist(point: Point, sides: Sides) -> u64 {
    let axis = |(p, (s, t)): (i32, (i32, i32))| squared(p, if p < s { s } else if p > t { t } else { p });
    point.into_iter().zip(sides).map(axis).sum()
}

/// MINMAXDIST: Definition 4 of document 001.
fn minmaxdist(point: Point, sides: Sides) -> u64 {
    let sum = |k: usize| (sides[k].0 as i64 + sides[k].1 as i64, 2 * point[k] as i64);
    let near = |k: usize| squared(point[k], if sum(k).1 <= sum(k).0 { sides[k].0 } else { sides[k].1 });
    let far = |k: usize| squared(point[k], if sum(k).1 >= sum(k).0 { sides[k].0 } else { sides[k].1 });
    (near(0) + far(1)).min(near(1) + far(0))
}

/// The answer, MINDIST and MINMAXDIST; both are 0 when refused.
pub fn measured(point: Point, sides: Sides) -> (u32, u64, u64) {
    if !point.into_iter().all(in_range) {
        (1, 0, 0)
    } else if !sides.into_iter().all(|(s, t)| in_range(s) && in_range(t) && s <= t) {
        (2, 0, 0)
    } else {
        (0, mindist(point, sides), minmaxdist(point, sides))
    }
}

/// The whole number r with r² ≤ d < (r+1)², by halving the numbers that it can be.
pub fn plain(d: u64) -> u64 {
    let (mut low, mut high) = (0u128, 1u128 << 32);
    while high - low > 1 {
        let middle = (low + high) / 2;
        if middle * middle <= d as u128 {
            low = middle
        } else {
            high = middle
        }
    }
    low as u64
}
