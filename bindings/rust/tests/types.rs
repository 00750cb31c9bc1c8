//! The types that carry the library's numbers lose none of them.

use std::error::Error;

use highvane::{Design, NoSuchRefusal, Refusal, Width};

#[test]
fn designs_and_widths_keep_any_numbers() {
    let edges = [8, 12, 16, 31, 32, 33, 255, 256, 1 << 16, 1 << 31, u32::MAX];
    let numbers = || (0..=7).chain(edges);
    for number in numbers() {
        for setting in numbers() {
            let design = Design::from_numbers(number, setting);
            assert_eq!((design.number(), design.setting()), (number, setting));
        }
        assert_eq!(u32::from(Width::from(number)), number);
    }
}

#[test]
fn refusals_and_their_numbers_are_one_to_one() {
    for &refusal in Refusal::ALL {
        assert_eq!(Refusal::try_from(u32::from(refusal)), Ok(refusal));
    }
    for number in [0, Refusal::ALL.len() as u32 + 1, u32::MAX] {
        assert_eq!(Refusal::try_from(number), Err(NoSuchRefusal { number }));
    }
}

#[test]
fn a_refusal_is_an_error_that_pads_as_texts_do() {
    let error: Box<dyn Error + Send + Sync> = Refusal::Subnormal.into();
    assert_eq!(format!("{error:>26}|"), "   an operand is subnormal|");
}
