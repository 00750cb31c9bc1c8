//! The refusals, each with its number.

use core::error::Error;
use core::fmt;

/// One table: names, numbers and texts are those of `include/highvane.h`.
macro_rules! refusals {
    ($($name:ident = $number:literal, $text:literal;)+) => {
        /// Why an operation refused its input. Each operation's tests have an order, and the first that applies is the one given.
        /// 17 to 19 stand only in the lines of a transcript.
        ///
        /// ```
        /// use highvane::Refusal;
        ///
        /// assert_eq!(Refusal::NoSuchRow.number(), 14);
        /// assert_eq!(Refusal::try_from(14), Ok(Refusal::NoSuchRow));
        /// assert_eq!(Refusal::NoSuchRow.to_string(), "the store has no row of that number");
        /// ```
        #[derive(Clone, Copy, Debug, PartialEq, Eq, Hash, PartialOrd, Ord)]
        #[repr(u32)]
        #[non_exhaustive]
        pub enum Refusal {
            $(#[doc = concat!($number, ": ", $text, ".")] $name = $number,)+
        }

        impl Refusal {
            /// Every refusal, in the order of the numbers.
            ///
            /// ```
            /// use highvane::Refusal;
            ///
            /// assert_eq!(Refusal::ALL[0], Refusal::UnknownDesign);
            /// assert!(Refusal::ALL.contains(&Refusal::NoSuchRow));
            /// ```
            pub const ALL: &'static [Refusal] = &[$(Refusal::$name),+];

            /// The refusal of that number, if there is one. `TryFrom` is the same with an error.
            ///
            /// ```
            /// use highvane::Refusal;
            ///
            /// assert_eq!(Refusal::from_number(1), Some(Refusal::UnknownDesign));
            /// assert_eq!(Refusal::from_number(0), None);
            /// ```
            #[must_use]
            pub const fn from_number(number: u32) -> Option<Refusal> {
                match number {
                    $($number => Some(Refusal::$name),)+
                    _ => None,
                }
            }

            /// What the refusal means, as a sentence without a full stop. `Display` writes it too.
            ///
            /// ```
            /// use highvane::Refusal;
            ///
            /// assert_eq!(Refusal::ShiftTooLarge.text(), "the shift is above 40");
            /// ```
            #[must_use]
            pub const fn text(self) -> &'static str {
                match self {
                    $(Refusal::$name => $text,)+
                }
            }
        }
    };
}

refusals! {
    UnknownDesign = 1, "the design is not 1 to 5";
    UnknownWidth = 2, "the width is not 8, 12, 16 or 32";
    SettingOutOfRange = 3, "the setting is not one that the design takes at this width";
    FirstOperandOutsideWidth = 4, "the first operand is outside the width";
    LengthsDiffer = 5, "the weights and the frame differ in length";
    TooManyPairs = 6, "the row has more than 4,096 pairs";
    ResiduesTooShort = 7, "there are fewer places for the residues than pairs";
    NotFinite = 8, "an operand is infinite or NaN";
    Subnormal = 9, "an operand is subnormal";
    ExponentTooLarge = 10, "the result's exponent field would pass 254";
    ExponentTooSmall = 11, "the result's exponent field would be below 1";
    ColumnsOutOfRange = 12, "the columns are 0 or more than 4,096";
    UnevenStore = 13, "the columns do not divide the store's length";
    NoSuchRow = 14, "the store has no row of that number";
    ShiftTooLarge = 15, "the shift is above 40";
    SizeTooLarge = 16, "the size of the score or of T is above 2^53";
    UnknownKind = 17, "the record's kind is unknown";
    CutShort = 18, "the record's body is cut short";
    InputTooLong = 19, "the input is longer than 65,536 bytes";
    SecondOperandOutsideWidth = 20, "only the second operand is outside the width";
    ScoresTooShort = 21, "there are fewer places for the scores than rows";
}

impl Refusal {
    /// The number under which the refusal is known to every caller of the library.
    ///
    /// ```
    /// use highvane::Refusal;
    ///
    /// assert_eq!(Refusal::SizeTooLarge.number(), 16);
    /// ```
    #[must_use]
    pub const fn number(self) -> u32 {
        self as u32
    }
}

impl fmt::Display for Refusal {
    fn fmt(&self, f: &mut fmt::Formatter<'_>) -> fmt::Result {
        f.pad(self.text())
    }
}

impl Error for Refusal {}

impl From<Refusal> for u32 {
    fn from(refusal: Refusal) -> u32 {
        refusal.number()
    }
}

impl TryFrom<u32> for Refusal {
    type Error = NoSuchRefusal;

    fn try_from(number: u32) -> Result<Refusal, NoSuchRefusal> {
        Refusal::from_number(number).ok_or(NoSuchRefusal { number })
    }
}

/// A number that is no refusal's: the error of `TryFrom<u32>` for [`Refusal`].
///
/// ```
/// use highvane::Refusal;
///
/// let error = Refusal::try_from(0).unwrap_err();
/// assert_eq!(error.number, 0);
/// assert_eq!(error.to_string(), "no refusal has the number 0");
/// ```
#[derive(Clone, Copy, Debug, PartialEq, Eq, Hash)]
pub struct NoSuchRefusal {
    /// The number.
    pub number: u32,
}

impl fmt::Display for NoSuchRefusal {
    fn fmt(&self, f: &mut fmt::Formatter<'_>) -> fmt::Result {
        write!(f, "no refusal has the number {}", self.number)
    }
}

impl Error for NoSuchRefusal {}

/// What the field `refusal` of an answer says: 0 is accepted.
pub(crate) fn judged(number: u32) -> Result<(), Refusal> {
    match number {
        0 => Ok(()),
        _ => Err(Refusal::from_number(number)
            .unwrap_or_else(|| panic!("the archive gave refusal {number}, which this version of the package does not know"))),
    }
}
