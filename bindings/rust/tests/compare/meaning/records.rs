//! The bench's records.

use std::fmt::Write;

use super::{products, singles, table};

/// All that the bench prints for an input.
pub fn transcript(input: &[u8]) -> String {
    if input.len() > 65_536 {
        return "0 no 19\ntotal 0 1\n".to_string();
    }
    let mut text = String::new();
    let (mut accepted, mut refused) = (0, 0);
    let mut rest = input;
    while let Some((&kind, after)) = rest.split_first() {
        let (outcome, left) = record(kind, after);
        match outcome {
            Ok(result) => {
                accepted += 1;
                writeln!(text, "{kind} ok {result}")
            }
            Err(number) => {
                refused += 1;
                writeln!(text, "{kind} no {number}")
            }
        }
        .expect("a String takes any text");
        rest = left;
    }
    text + &format!("total {accepted} {refused}\n")
}

/// The outcome of one record and what is left to read, which is nothing once 17 or 18 ends the reading.
fn record(kind: u8, after: &[u8]) -> (Result<i128, u32>, &[u8]) {
    let length = match kind {
        1 => 6,
        2 => 8,
        3 => 2,
        _ => return (Err(17), &[]),
    };
    if after.len() < length {
        return (Err(18), &[]);
    }
    let (body, left) = after.split_at(length);
    let outcome = match kind {
        1 => {
            let numbers = (u32::from(body[0]), 16, u32::from(body[1]));
            products::outcome(true, numbers, (signed(&body[2..4]), signed(&body[4..6])))
        }
        2 => {
            let pattern = |bytes| u32::try_from(unsigned(bytes)).expect("four bytes");
            singles::outcome(pattern(&body[..4]), pattern(&body[4..])).map(i128::from)
        }
        _ => Ok(table::product(body[0], body[1])),
    };
    (outcome, left)
}

/// A field of several bytes, low byte first.
fn unsigned(bytes: &[u8]) -> i128 {
    bytes.iter().rev().fold(0, |high, &byte| 256 * high + i128::from(byte))
}

/// A signed field of two bytes.
fn signed(bytes: &[u8]) -> i128 {
    let number = unsigned(bytes);
    if number < 32_768 { number } else { number - 65_536 }
}
