//! The C interface as `include/highvane.h` declares it: numbers in, answers as structs by value, a slice as its pointer and then its
//! length. In an answer `refusal` is 0 where the call was accepted; otherwise it is the refusal's number, and all else is 0.
//!
//! The functions of the package are these with Rust's types around them. What is left for this module is a caller that has pointers,
//! or that hands numbers through as they are.
//!
//! ```
//! use highvane::{Refusal, raw};
//!
//! let answer = raw::highvane_product_signed(2, 8, 0, -5, 6);
//! assert_eq!((answer.product, answer.refusal), (-32, 0));
//! let answer = raw::highvane_product_signed(2, 8, 7, -5, 6);
//! assert_eq!(
//!     (answer.product, Refusal::from_number(answer.refusal)),
//!     (0, Some(Refusal::SettingOutOfRange))
//! );
//! ```

use core::mem::offset_of;

use crate::Report;

/// The answer of [`highvane_product_unsigned`].
///
/// ```
/// let answer = highvane::raw::highvane_product_unsigned(1, 8, 0, 3, 3);
/// assert_eq!(answer, highvane::raw::Unsigned { product: 8, refusal: 0 });
/// ```
#[repr(C)]
#[derive(Clone, Copy, Debug, Default, PartialEq, Eq, Hash)]
pub struct Unsigned {
    /// The product.
    pub product: u64,
    /// The refusal's number, or 0.
    pub refusal: u32,
}

/// The answer of [`highvane_product_signed`].
///
/// ```
/// let answer = highvane::raw::highvane_product_signed(1, 8, 0, 3, -3);
/// assert_eq!(answer, highvane::raw::Signed { product: -8, refusal: 0 });
/// ```
#[repr(C)]
#[derive(Clone, Copy, Debug, Default, PartialEq, Eq, Hash)]
pub struct Signed {
    /// The product.
    pub product: i64,
    /// The refusal's number, or 0.
    pub refusal: u32,
}

/// The answer of [`highvane_score_row`] and of the rows by one design. A struct in a struct lies in memory as C's flat one does.
///
/// ```
/// let answer = highvane::raw::ScoredRow::default();
/// assert_eq!((answer.report.score, answer.refusal), (0, 0));
/// ```
#[repr(C)]
#[derive(Clone, Copy, Debug, Default, PartialEq, Eq, Hash)]
pub struct ScoredRow {
    /// The report.
    pub report: Report,
    /// The refusal's number, or 0.
    pub refusal: u32,
}

/// The answer of [`highvane_score_layer`].
///
/// ```
/// let (no_weights, frame) = (core::ptr::null(), [3, 6]);
/// // SAFETY: the frame's pointer goes with its length, and where a length is 0, its pointer is not followed.
/// let answer = unsafe {
///     highvane::raw::highvane_score_layer(
///         1,
///         0,
///         no_weights,
///         0,
///         2,
///         frame.as_ptr(),
///         2,
///         core::ptr::null_mut(),
///         0,
///     )
/// };
/// assert_eq!(answer, highvane::raw::Layer { rows: 0, refusal: 0 });
/// ```
#[repr(C)]
#[derive(Clone, Copy, Debug, Default, PartialEq, Eq, Hash)]
pub struct Layer {
    /// How many rows the store has.
    pub rows: u64,
    /// The refusal's number, or 0.
    pub refusal: u32,
}

/// What the rows by one design are, such as [`highvane_score_row_mitchell`]: the setting, the weights, the frame and the residues, each
/// slice as its pointer and its length.
///
/// ```
/// let row: highvane::raw::RowByItself = highvane::raw::highvane_score_row_mitchell;
/// let no_numbers = core::ptr::null();
/// // SAFETY: where a length is 0, its pointer is not followed.
/// let answer = unsafe { row(1, no_numbers, 0, no_numbers, 0, core::ptr::null_mut(), 0) };
/// assert_eq!(answer.refusal, 3);
/// ```
pub type RowByItself = unsafe extern "C" fn(u32, *const i16, usize, *const i16, usize, *mut i64, usize) -> ScoredRow;

/// The answer of [`highvane_scale`].
///
/// ```
/// let answer = highvane::raw::highvane_scale(-20, 39, 3);
/// assert_eq!(answer, highvane::raw::Scaled { score: -2.5, magnitude_sum: 4.875, refusal: 0 });
/// ```
#[repr(C)]
#[derive(Clone, Copy, Debug, Default, PartialEq)]
pub struct Scaled {
    /// The score divided by 2^shift.
    pub score: f64,
    /// T divided by 2^shift.
    pub magnitude_sum: f64,
    /// The refusal's number, or 0.
    pub refusal: u32,
}

/// The answer of [`highvane_single_product`].
///
/// ```
/// let answer = highvane::raw::highvane_single_product(1.5f32.to_bits(), 1.5f32.to_bits());
/// assert_eq!(answer, highvane::raw::Single { value: 2.0, refusal: 0 });
/// ```
#[repr(C)]
#[derive(Clone, Copy, Debug, Default, PartialEq)]
pub struct Single {
    /// The product.
    pub value: f32,
    /// The refusal's number, or 0.
    pub refusal: u32,
}

// The layouts that the archive was compiled for; on a target where they differ, this does not build.
const _: () = {
    assert!(size_of::<usize>() == 8);
    assert!(size_of::<Unsigned>() == 16 && offset_of!(Unsigned, refusal) == 8);
    assert!(size_of::<Signed>() == 16 && offset_of!(Signed, refusal) == 8);
    assert!(size_of::<ScoredRow>() == 64 && offset_of!(ScoredRow, refusal) == 56);
    assert!(size_of::<Report>() == 56 && offset_of!(Report, magnitude_sum) == 24 && offset_of!(Report, largest_place) == 48);
    assert!(size_of::<Layer>() == 16 && offset_of!(Layer, refusal) == 8);
    assert!(size_of::<Scaled>() == 24 && offset_of!(Scaled, refusal) == 16);
    assert!(size_of::<Single>() == 8 && offset_of!(Single, refusal) == 4);
    assert!(align_of::<ScoredRow>() == 8 && align_of::<Single>() == 4);
};

// SAFETY: these are the archive's functions with the types of its C interface. The safe ones take and give plain numbers, and
// accept every number. The others read no more places than the length after the pointer says; those that score a row write at most
// `residues_len` places, `highvane_score_layer` at most `scores_len`, and `highvane_transcript` at most `TRANSCRIPT_MAX`.
unsafe extern "C" {
    /// [`unsigned_product`](crate::unsigned_product), by numbers.
    ///
    /// ```
    /// assert_eq!(highvane::raw::highvane_product_unsigned(1, 8, 0, 5, 6).product, 28);
    /// assert_eq!(highvane::raw::highvane_product_unsigned(9, 8, 0, 5, 6).refusal, 1);
    /// ```
    pub safe fn highvane_product_unsigned(design: u32, width: u32, setting: u32, a: u64, b: u64) -> Unsigned;

    /// [`signed_product`](crate::signed_product), by numbers.
    ///
    /// ```
    /// assert_eq!(highvane::raw::highvane_product_signed(2, 8, 0, -5, 6).product, -32);
    /// assert_eq!(highvane::raw::highvane_product_signed(2, 8, 0, 128, 6).refusal, 4);
    /// ```
    pub safe fn highvane_product_signed(design: u32, width: u32, setting: u32, a: i64, b: i64) -> Signed;

    /// [`score_row`](crate::score_row), by numbers and pointers.
    ///
    /// # Safety
    ///
    /// Each pointer is aligned and points at as many numbers as the length after it says, or that length is 0. What is read may
    /// overlap; the residues overlap nothing, and nobody else reads or writes them during the call.
    ///
    /// ```
    /// let (weights, frame, mut residues) = ([3, -5, 0], [3, 6, 7], [0; 3]);
    /// // SAFETY: each pointer goes with the length of its own array.
    /// let answer = unsafe {
    ///     highvane::raw::highvane_score_row(
    ///         1,
    ///         0,
    ///         weights.as_ptr(),
    ///         3,
    ///         frame.as_ptr(),
    ///         3,
    ///         residues.as_mut_ptr(),
    ///         3,
    ///     )
    /// };
    /// assert_eq!((answer.report.score, answer.report.error, answer.refusal), (-20, -1, 0));
    /// assert_eq!(residues, [1, -2, 0]);
    /// ```
    pub fn highvane_score_row(
        design: u32,
        setting: u32,
        weights: *const i16,
        weights_len: usize,
        frame: *const i16,
        frame_len: usize,
        residues: *mut i64,
        residues_len: usize,
    ) -> ScoredRow;

    /// [`score_row_mitchell`](crate::score_row_mitchell), by numbers and pointers.
    ///
    /// # Safety
    ///
    /// As for [`highvane_score_row`].
    ///
    /// ```
    /// let (weights, frame, mut residues) = ([3, -5, 0], [3, 6, 7], [0; 3]);
    /// // SAFETY: each pointer goes with the length of its own array.
    /// let answer = unsafe {
    ///     highvane::raw::highvane_score_row_mitchell(
    ///         0,
    ///         weights.as_ptr(),
    ///         3,
    ///         frame.as_ptr(),
    ///         3,
    ///         residues.as_mut_ptr(),
    ///         3,
    ///     )
    /// };
    /// assert_eq!((answer.report.score, answer.refusal), (-20, 0));
    /// ```
    pub fn highvane_score_row_mitchell(
        setting: u32,
        weights: *const i16,
        weights_len: usize,
        frame: *const i16,
        frame_len: usize,
        residues: *mut i64,
        residues_len: usize,
    ) -> ScoredRow;

    /// [`score_row_nearest`](crate::score_row_nearest), by numbers and pointers.
    ///
    /// # Safety
    ///
    /// As for [`highvane_score_row`].
    ///
    /// ```
    /// let (weights, frame, mut residues) = ([3, -5, 0], [3, 6, 7], [0; 3]);
    /// // SAFETY: each pointer goes with the length of its own array.
    /// let answer = unsafe {
    ///     highvane::raw::highvane_score_row_nearest(
    ///         0,
    ///         weights.as_ptr(),
    ///         3,
    ///         frame.as_ptr(),
    ///         3,
    ///         residues.as_mut_ptr(),
    ///         3,
    ///     )
    /// };
    /// assert_eq!((answer.report.score, answer.refusal), (-24, 0));
    /// ```
    pub fn highvane_score_row_nearest(
        setting: u32,
        weights: *const i16,
        weights_len: usize,
        frame: *const i16,
        frame_len: usize,
        residues: *mut i64,
        residues_len: usize,
    ) -> ScoredRow;

    /// [`score_row_staged`](crate::score_row_staged), by numbers and pointers.
    ///
    /// # Safety
    ///
    /// As for [`highvane_score_row`].
    ///
    /// ```
    /// let (weights, frame, mut residues) = ([3, -5, 0], [3, 6, 7], [0; 3]);
    /// // SAFETY: each pointer goes with the length of its own array.
    /// let answer = unsafe {
    ///     highvane::raw::highvane_score_row_staged(
    ///         2,
    ///         weights.as_ptr(),
    ///         3,
    ///         frame.as_ptr(),
    ///         3,
    ///         residues.as_mut_ptr(),
    ///         3,
    ///     )
    /// };
    /// assert_eq!((answer.report.score, answer.refusal), (-21, 0));
    /// ```
    pub fn highvane_score_row_staged(
        setting: u32,
        weights: *const i16,
        weights_len: usize,
        frame: *const i16,
        frame_len: usize,
        residues: *mut i64,
        residues_len: usize,
    ) -> ScoredRow;

    /// [`score_row_truncated`](crate::score_row_truncated), by numbers and pointers.
    ///
    /// # Safety
    ///
    /// As for [`highvane_score_row`].
    ///
    /// ```
    /// let (weights, frame, mut residues) = ([3, -5, 0], [3, 6, 7], [0; 3]);
    /// // SAFETY: each pointer goes with the length of its own array.
    /// let answer = unsafe {
    ///     highvane::raw::highvane_score_row_truncated(
    ///         6,
    ///         weights.as_ptr(),
    ///         3,
    ///         frame.as_ptr(),
    ///         3,
    ///         residues.as_mut_ptr(),
    ///         3,
    ///     )
    /// };
    /// assert_eq!((answer.report.score, answer.refusal), (-20, 0));
    /// ```
    pub fn highvane_score_row_truncated(
        setting: u32,
        weights: *const i16,
        weights_len: usize,
        frame: *const i16,
        frame_len: usize,
        residues: *mut i64,
        residues_len: usize,
    ) -> ScoredRow;

    /// [`score_row_twice_truncated`](crate::score_row_twice_truncated), by numbers and pointers.
    ///
    /// # Safety
    ///
    /// As for [`highvane_score_row`].
    ///
    /// ```
    /// let (weights, frame, mut residues) = ([3, -5, 0], [3, 6, 7], [0; 3]);
    /// // SAFETY: each pointer goes with the length of its own array.
    /// let answer = unsafe {
    ///     highvane::raw::highvane_score_row_twice_truncated(
    ///         6,
    ///         weights.as_ptr(),
    ///         3,
    ///         frame.as_ptr(),
    ///         3,
    ///         residues.as_mut_ptr(),
    ///         3,
    ///     )
    /// };
    /// assert_eq!((answer.report.score, answer.refusal), (-22, 0));
    /// ```
    pub fn highvane_score_row_twice_truncated(
        setting: u32,
        weights: *const i16,
        weights_len: usize,
        frame: *const i16,
        frame_len: usize,
        residues: *mut i64,
        residues_len: usize,
    ) -> ScoredRow;

    /// Whether a store has a row: 0, and then the row is the `columns` weights from `store + row * columns` on, or the refusal that
    /// [`row_of`](crate::row_of) gives.
    ///
    /// # Safety
    ///
    /// The pointer is aligned and points at `store_len` numbers, or that is 0.
    ///
    /// ```
    /// let store = [1, 2, 3, 4, 5, 6];
    /// // SAFETY: the pointer goes with the length of its array.
    /// assert_eq!(
    ///     unsafe { highvane::raw::highvane_row_refusal(store.as_ptr(), store.len(), 3, 2) },
    ///     14
    /// );
    /// ```
    pub fn highvane_row_refusal(store: *const i16, store_len: usize, columns: usize, row: usize) -> u32;

    /// [`score_layer`](crate::score_layer), by numbers and pointers.
    ///
    /// # Safety
    ///
    /// Each pointer is aligned and points at as many numbers as the length after it says, or that length is 0. What is read may
    /// overlap; the scores overlap nothing, and nobody else reads or writes them during the call.
    ///
    /// ```
    /// let (store, frame, mut scores) = ([3, -5, 0, 7, 5, 6], [3, 6], [0; 3]);
    /// // SAFETY: each pointer goes with the length of its own array.
    /// let answer = unsafe {
    ///     highvane::raw::highvane_score_layer(
    ///         1,
    ///         0,
    ///         store.as_ptr(),
    ///         6,
    ///         2,
    ///         frame.as_ptr(),
    ///         2,
    ///         scores.as_mut_ptr(),
    ///         3,
    ///     )
    /// };
    /// assert_eq!((answer.rows, answer.refusal, scores), (3, 0, [-20, 40, 46]));
    /// ```
    pub fn highvane_score_layer(
        design: u32,
        setting: u32,
        store: *const i16,
        store_len: usize,
        columns: usize,
        frame: *const i16,
        frame_len: usize,
        scores: *mut i64,
        scores_len: usize,
    ) -> Layer;

    /// [`scale`](crate::scale).
    ///
    /// ```
    /// assert_eq!(highvane::raw::highvane_scale(-20, 39, 3).score, -2.5);
    /// assert_eq!(highvane::raw::highvane_scale(-20, 39, 41).refusal, 15);
    /// ```
    pub safe fn highvane_scale(score: i64, magnitude_sum: u64, shift: u32) -> Scaled;

    /// [`single_product_of_bits`](crate::single_product_of_bits).
    ///
    /// ```
    /// assert_eq!(highvane::raw::highvane_single_product(0x3FA0_0000, 0x3FA0_0000).value, 1.5);
    /// assert_eq!(highvane::raw::highvane_single_product(0x7F80_0000, 0).refusal, 8);
    /// ```
    pub safe fn highvane_single_product(a: u32, b: u32) -> Single;

    /// [`table_product`](crate::table_product).
    ///
    /// ```
    /// assert_eq!(highvane::raw::highvane_table_product(255, 255), 65024);
    /// ```
    pub safe fn highvane_table_product(a: u8, b: u8) -> u16;

    /// [`transcript_into`](crate::transcript_into), by pointers; it gives the number of bytes written.
    ///
    /// # Safety
    ///
    /// `input` points at `input_len` bytes, or that is 0. `out` points at [`TRANSCRIPT_MAX`](crate::TRANSCRIPT_MAX) bytes that
    /// overlap no input, and that nobody else reads or writes during the call.
    ///
    /// ```
    /// let (input, mut out) = ([3, 255, 255], [0; highvane::TRANSCRIPT_MAX]);
    /// // SAFETY: the input's pointer goes with its length, and `out` has as many bytes as are asked.
    /// let written = unsafe {
    ///     highvane::raw::highvane_transcript(input.as_ptr(), input.len(), out.as_mut_ptr())
    /// };
    /// assert_eq!(&out[..written], b"3 ok 65024\ntotal 1 0\n");
    /// ```
    pub fn highvane_transcript(input: *const u8, input_len: usize, out: *mut u8) -> usize;
}
