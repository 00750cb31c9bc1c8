//! The byte table, by its codes.

use super::designs::{parts, power};

/// The code of a byte that is not 0.
fn code(byte: u8) -> i128 {
    let (k, a) = parts(i128::from(byte));
    128 * i128::from(k) + a * power(7 - k)
}

/// The product of two bytes by their codes. The code 0 is that of 1, so a zero byte is never looked up.
pub fn product(a: u8, b: u8) -> i128 {
    if a == 0 || b == 0 {
        return 0;
    }
    let sum = code(a) + code(b);
    let (quotient, rest) = (sum / 128, sum % 128);
    let scaled = (128 + rest) * power(u32::try_from(quotient).expect("two codes are below 2048"));
    assert_eq!(scaled % 128, 0, "the product of {a} and {b} is not whole");
    scaled / 128
}
