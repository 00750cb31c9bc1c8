//! The single-precision product, on patterns.

/// The pattern of the product of two patterns.
pub fn outcome(a: u32, b: u32) -> Result<u32, u32> {
    let operands = [fields(a), fields(b)];
    if operands.iter().any(|&(_, exponent, _)| exponent == 255) {
        return Err(8);
    }
    if operands.iter().any(|&(_, exponent, fraction)| exponent == 0 && fraction != 0) {
        return Err(9);
    }
    let [(sign_a, exponent_a, fraction_a), (sign_b, exponent_b, fraction_b)] = operands;
    let sign = i64::from(sign_a != sign_b);
    if exponent_a == 0 || exponent_b == 0 {
        return Ok(pattern(sign, 0, 0));
    }
    let sum = fraction_a + fraction_b;
    let (exponent, fraction) =
        if sum < 1 << 23 { (exponent_a + exponent_b - 127, sum) } else { (exponent_a + exponent_b - 126, sum - (1 << 23)) };
    if exponent > 254 {
        return Err(10);
    }
    if exponent < 1 {
        return Err(11);
    }
    Ok(pattern(sign, exponent, fraction))
}

/// Sign, exponent field and fraction field.
fn fields(pattern: u32) -> (i64, i64, i64) {
    let pattern = i64::from(pattern);
    (pattern / (1 << 31), pattern / (1 << 23) % 256, pattern % (1 << 23))
}

fn pattern(sign: i64, exponent: i64, fraction: i64) -> u32 {
    u32::try_from((sign << 31) + (exponent << 23) + fraction).expect("a pattern has 32 bits")
}
