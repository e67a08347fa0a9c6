//! Layer values and penalties as document 01 words them ("Soft values and
//! scores"); 002 (3), (4) and the penalty function of (2).

/// Magnitude min(|a|,|b|), sign the product of the signs, 0 if either is 0.
pub fn q(a: i32, b: i32) -> i32 {
    let magnitude = a.abs().min(b.abs());
    if (a < 0) == (b < 0) {
        magnitude
    } else {
        -magnitude
    }
}

/// b + a for v = 0, b - a for v = 1.
pub fn p(v: u8, a: i32, b: i32) -> i32 {
    if v == 0 {
        b + a
    } else {
        b - a
    }
}

/// 0 if the value is 0 or its sign agrees with the bit, else -|value|.
pub fn penalty(value: i32, bit: u8) -> i32 {
    let agrees = value == 0 || (value > 0) == (bit == 0);
    if agrees {
        0
    } else {
        -value.abs()
    }
}

/// 1 where the value is below 0, else 0.
pub fn hard(value: i32) -> u8 {
    (value < 0) as u8
}
