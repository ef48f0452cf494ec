//! Exact arithmetic of roots and rounding in whole numbers.

/// The whole number nearest to n / d, a tie going to the even one
/// (document 01, "Closure, corrections, heights"); d is at least 1.
pub fn round_even(n: i128, d: i128) -> i128 {
    assert!(d >= 1, "a denominator below 1");
    let below = n.div_euclid(d);
    let rest = n.rem_euclid(d);
    let rest_to_next = d - rest;
    let up = rest > rest_to_next || (rest == rest_to_next && below % 2 != 0);
    if up {
        below + 1
    } else {
        below
    }
}

/// Whether a * x * x <= b * l, exactly, for every x and l of 64 bits and
/// coefficients a >= 1 and b of 63 bits. As all are whole numbers, the question
/// is whether x * x is at most the whole part of b * l / a; so asked, no product
/// passes 128 bits.
pub fn within(a: i128, x: i128, b: i128, l: i128) -> bool {
    assert!(a >= 1, "a coefficient below 1");
    x * x <= (b * l).div_euclid(a)
}

/// A figure in 64 bits; every figure of a book has room there.
pub fn narrow(figure: i128) -> i64 {
    i64::try_from(figure).expect("a figure of 64 bits")
}
