//! Distances, as written.

/// (x - y) mod N.
pub fn fall(m: u32, x: i64, y: i64) -> i64 {
    (x - y).rem_euclid(1 << m)
}

pub fn signed(m: u32, x: i64, y: i64) -> i64 {
    let n: i64 = 1 << m;
    let d = x - y;
    if d < -n / 2 {
        d + n
    } else if d > n / 2 {
        d - n
    } else {
        d
    }
}

pub fn abs_dist(m: u32, x: i64, y: i64) -> i64 {
    signed(m, x, y).abs()
}

/// Whether `a` is nearer to the key `k` than `b`.
pub fn nearer(m: u32, k: i64, a: i64, b: i64) -> bool {
    let (da, db) = (abs_dist(m, k, a), abs_dist(m, k, b));
    da < db || da == db && a != b && (a + da).rem_euclid(1 << m) == k
}
