// Returns in plain Rust: what the plain check and fill of a book's scenarios and the plain unit share.

// The nearest whole number, halves away from zero.
pub fn nearest(n: i64, d: i64) -> i64 {
    let size = (2 * n.abs() + d) / (2 * d);
    if n < 0 {
        -size
    } else {
        size
    }
}

// The whole root by floats: it may be one too high, and with so large a number one too low.
pub fn float_root(n: u64) -> u64 {
    let mut root = (n as f64).sqrt() as u64;
    while root * root > n {
        root -= 1;
    }
    while (root + 1) * (root + 1) <= n {
        root += 1;
    }
    root
}

pub fn next_variance(smoothing: u64, j: usize, variance: u64, r: i64) -> u64 {
    let square = (r * r) as u64 * 10_000;
    match j {
        0 => square,
        _ => (smoothing * variance + (1_000 - smoothing) * square) / 1_000,
    }
}

pub fn scaled_return(r: i64, newest: u64, own: u64) -> i64 {
    match own {
        0 => 0,
        _ => nearest(r * (newest + own) as i64, 2 * own as i64),
    }
}

pub fn in_range(r: i64) -> bool {
    (-1_000_000..=1_000_000).contains(&r)
}
