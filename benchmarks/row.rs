//! The row of row.c in Rust as it is usually written: slices, iterators and `NonZeroU32`, and no `unsafe` past the raw arguments.
//! `--cfg one_loop` asks for the design at each pair; otherwise each design has its loop. The kernels and the branch for the sign
//! are those that gave the fewest instructions at rustc -O: a sign by select gives 6 to 12 more a pair, and in the twice truncated
//! product masks shifted down give 1, a sum by a function that both truncated products call gives 2, a branch on the carry 2 to 3,
//! differences 11 to 14, and kept bits scaled down 14 to 15.
#![no_std]

use core::num::NonZeroU32;
use core::slice;

#[repr(C)]
#[derive(Default)]
pub struct Report {
    score: i64,
    true_sum: i64,
    error: i64,
    magnitude_sum: u64,
    nonzero_pairs: u64,
    largest_residue: u64,
    largest_place: u64,
    refusal: u32,
}

const TOP: u32 = 1 << 31;

fn mitchell(a: NonZeroU32, b: NonZeroU32) -> u32 {
    let (k, m) = (a.ilog2(), b.ilog2());
    let sum = ((a.get() & !(1 << k)) << m) + ((b.get() & !(1 << m)) << k);
    (sum | 1 << (k + m)).max(2 * sum)
}

fn near_power(x: NonZeroU32) -> u32 {
    let k = x.ilog2();
    k + (2 * x.get() >> k & 1)
}

fn nearest(a: NonZeroU32, b: NonZeroU32) -> u32 {
    let (k, m) = (near_power(a), near_power(b));
    (a.get() << m).wrapping_add(b.get().wrapping_sub(1 << m) << k)
}

fn staged(stages: u32, mut a: NonZeroU32, mut b: NonZeroU32) -> u32 {
    let mut sum = 0;
    for _ in 0..stages {
        let (k, m) = (a.ilog2(), b.ilog2());
        let (x, y) = (a.get() & !(1 << k), b.get() & !(1 << m));
        sum += (a.get() << m) + (y << k);
        match (NonZeroU32::new(x), NonZeroU32::new(y)) {
            (Some(x), Some(y)) => (a, b) = (x, y),
            _ => break,
        }
    }
    sum
}

fn truncated(kept_bits: u32, a: NonZeroU32, b: NonZeroU32) -> u32 {
    let (k, m) = (a.leading_zeros(), b.leading_zeros());
    let carry = TOP >> kept_bits;
    let kept = carry.wrapping_neg();
    // the leading ones cancel modulo 2^32, and where the fractions carry the exponent grows by one
    let sum = (a.get() << k & kept).wrapping_add(b.get() << m & kept).wrapping_add(carry);
    (sum | TOP) >> (k + m - 31 - (sum >> 31))
}

fn twice_truncated(kept_bits: u32, a: NonZeroU32, b: NonZeroU32) -> u32 {
    let (k, m) = (a.leading_zeros(), b.leading_zeros());
    let carry = TOP >> kept_bits;
    let kept = carry.wrapping_neg();
    let (a, b) = (a.get() << k, b.get() << m);
    let sum = (a & kept).wrapping_add(b & kept).wrapping_add(carry);
    let first = (sum | TOP) >> (k + m - 31 - (sum >> 31));
    // what is left is the fraction, or where the fractions carry its bits inverted, and never the leading one
    let inverted = if sum < TOP { TOP } else { u32::MAX };
    match (NonZeroU32::new((a ^ inverted) >> k), NonZeroU32::new((b ^ inverted) >> m)) {
        (Some(x), Some(y)) => first + truncated(2, x, y),
        _ => first,
    }
}

fn accumulate<K: Fn(NonZeroU32, NonZeroU32) -> u32>(weights: &[i16], frame: &[i16], residues: &mut [i64], kernel: K) -> Report {
    let mut report = Report::default();
    for (place, ((&w, &x), residue)) in weights.iter().zip(frame).zip(residues).enumerate() {
        let sizes = (NonZeroU32::new(w.unsigned_abs().into()), NonZeroU32::new(x.unsigned_abs().into()));
        let (Some(a), Some(b)) = sizes else {
            *residue = 0;
            continue;
        };
        let truth = i64::from(w) * i64::from(x);
        let size = i64::from(kernel(a, b));
        report.nonzero_pairs += 1;
        report.true_sum += truth;
        report.magnitude_sum += truth.unsigned_abs();
        if truth < 0 {
            report.score -= size;
            *residue = truth + size;
        } else {
            report.score += size;
            *residue = truth - size;
        }
        if residue.unsigned_abs() > report.largest_residue {
            report.largest_residue = residue.unsigned_abs();
            report.largest_place = place as u64;
        }
    }
    report.error = report.true_sum - report.score;
    report
}

fn refusal_of(design: u32, setting: u32, weights: &[i16], frame: &[i16], residues: &[i64]) -> Option<u32> {
    let taken = match design {
        1 | 2 => setting == 0,
        3 => (1..=16).contains(&setting),
        4 | 5 => (1..=15).contains(&setting),
        _ => return Some(1),
    };
    if !taken {
        Some(3)
    } else if weights.len() != frame.len() {
        Some(5)
    } else if weights.len() > 4096 {
        Some(6)
    } else if residues.len() < weights.len() {
        Some(7)
    } else {
        None
    }
}

fn score_row(design: u32, setting: u32, weights: &[i16], frame: &[i16], residues: &mut [i64]) -> Report {
    if let Some(refusal) = refusal_of(design, setting, weights, frame, residues) {
        return Report { refusal, ..Report::default() };
    }
    if cfg!(one_loop) {
        return accumulate(weights, frame, residues, |a, b| match design {
            1 => mitchell(a, b),
            2 => nearest(a, b),
            3 => staged(setting, a, b),
            4 => truncated(setting, a, b),
            _ => twice_truncated(setting, a, b),
        });
    }
    match design {
        1 => accumulate(weights, frame, residues, mitchell),
        2 => accumulate(weights, frame, residues, nearest),
        3 => accumulate(weights, frame, residues, |a, b| staged(setting, a, b)),
        4 => accumulate(weights, frame, residues, |a, b| truncated(setting, a, b)),
        _ => accumulate(weights, frame, residues, |a, b| twice_truncated(setting, a, b)),
    }
}

/// # Safety
/// Each pointer must be one that the length beside it makes a slice, and the residues must overlap nothing.
#[cfg_attr(one_loop, unsafe(export_name = "rust_one_loop"))]
#[cfg_attr(not(one_loop), unsafe(export_name = "rust_each"))]
pub unsafe extern "C" fn score_row_of_slices(
    design: u32,
    setting: u32,
    weights: *const i16,
    weights_len: usize,
    frame: *const i16,
    frame_len: usize,
    residues: *mut i64,
    residues_len: usize,
) -> Report {
    let (weights, frame, residues) = unsafe {
        (
            slice::from_raw_parts(weights, weights_len),
            slice::from_raw_parts(frame, frame_len),
            slice::from_raw_parts_mut(residues, residues_len),
        )
    };
    score_row(design, setting, weights, frame, residues)
}
