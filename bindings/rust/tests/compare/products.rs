//! Products of two whole numbers, and of two bytes by the table.

use highvane::{Design, Refusal, Width, signed_product, table_product, unsigned_product};

use crate::meaning::{designs, products, table};
use crate::random::Random;
use crate::tally::Tally;

/// The archive's product, by design, width and setting.
pub fn given(signed: bool, numbers: (u32, u32, u32), (a, b): (i128, i128)) -> Result<i128, Refusal> {
    let (design, width, setting) = numbers;
    let (design, width) = (Design::from_numbers(design, setting), Width::from_bits(width));
    if signed {
        signed_product(design, width, a as i64, b as i64).map(i128::from)
    } else {
        unsigned_product(design, width, a as u64, b as u64).map(i128::from)
    }
}

/// One product, against its outcome, the limit of the width and the residue that the document states.
fn compare(signed: bool, numbers: (u32, u32, u32), (a, b): (i128, i128), tally: &mut Tally) {
    let (design, width, setting) = numbers;
    let given = given(signed, numbers, (a, b));
    let input = || {
        let kind = if signed { "signed" } else { "unsigned" };
        format!("{kind}, design {design}, width {width}, setting {setting}, operands {a} and {b}")
    };
    tally.outcome(given, products::outcome(signed, numbers, (a, b)), input);
    if let Ok(product) = given {
        let size = product.abs();
        if !signed {
            tally.same(size < designs::power(2 * width), true, || input() + ", product below 2^(2w)");
        }
        if a != 0 && b != 0 {
            if let Some(residue) = designs::stated_residue(design, a.abs(), b.abs()) {
                tally.same((a * b).abs() - size, residue, || input() + ", residue of the sizes");
            }
        }
    }
}

/// All pairs of operands of so many bits, unsigned and signed, by one design, width and setting.
fn all_pairs(bits: u32, numbers: (u32, u32, u32), tally: &mut Tally) {
    for signed in [false, true] {
        let (low, high) = products::range(signed, bits);
        for a in low..=high {
            for b in low..=high {
                compare(signed, numbers, (a, b), tally);
            }
        }
    }
}

/// All pairs of bytes by every design, with every setting that it takes, at every width.
pub fn byte_pairs(_: &mut Random, tally: &mut Tally) {
    for width in products::WIDTHS {
        for design in designs::DESIGNS {
            for setting in (0..=width).filter(|&setting| products::takes(design, width, setting)) {
                all_pairs(8, (design, width, setting), tally);
            }
        }
    }
}

/// All 2^24 pairs of operands of width 12 by a design with some of its settings.
pub fn twelve_bit_pairs<const DESIGN: u32>(_: &mut Random, tally: &mut Tally) {
    let settings: &[u32] = match DESIGN {
        3 => &[1, 2, 12],
        4 | 5 => &[1, 6, 11],
        _ => &[0],
    };
    for &setting in settings {
        all_pairs(12, (DESIGN, 12, setting), tally);
    }
}

/// Every design, width and setting near the known ones, with operands on both sides of every limit, so that each order of refusals
/// arises.
pub fn numbers(_: &mut Random, tally: &mut Tally) {
    let powers = products::WIDTHS.into_iter().flat_map(|width| [designs::power(width - 1), designs::power(width)]);
    let operands: Vec<_> = powers.flat_map(|power| [power - 1, power]).chain([0, 1, 3, i128::from(i64::MAX)]).collect();
    for design in 0..=7 {
        for width in 0..=66 {
            for setting in 0..=66 {
                for &a in &operands {
                    for b in [5, a, 1 << 40] {
                        compare(false, (design, width, setting), (a, b), tally);
                        compare(true, (design, width, setting), (-a, b), tally);
                        compare(true, (design, width, setting), (b, -1 - a), tally);
                    }
                }
            }
        }
    }
}

/// A million seeded products, with numbers that are mostly known and operands that are mostly inside the width.
pub fn seeded(random: &mut Random, tally: &mut Tally) {
    for _ in 0..1_000_000 {
        let (design, width) = (random.design(), random.width());
        let setting = random.setting(design, width);
        let signed = random.once_in(2);
        let bits = if products::WIDTHS.contains(&width) { width } else { 16 };
        let operands = (random.operand(signed, bits), random.operand(signed, bits));
        compare(signed, (design, width, setting), operands, tally);
    }
}

/// All pairs of bytes by the table, against the codes and against design 1.
pub fn byte_table(_: &mut Random, tally: &mut Tally) {
    for a in 0..=u8::MAX {
        for b in 0..=u8::MAX {
            let given = i128::from(table_product(a, b));
            tally.same(given, table::product(a, b), || format!("table, by codes, {a} and {b}"));
            let first = designs::product(1, 0, i128::from(a), i128::from(b));
            tally.same(given, first, || format!("table, by design 1, {a} and {b}"));
        }
    }
}
