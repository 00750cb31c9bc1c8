//! The designs with their settings, and the widths. Both can also hold any other numbers, for which the library has its refusals.

/// A design with its setting.
///
/// A setting that the design does not take is not an error here: the operation refuses it with [`Refusal::SettingOutOfRange`].
///
/// ```
/// use highvane::{Design, Refusal, Width, unsigned_product};
///
/// let two_stages = Design::Staged { stages: 2 };
/// assert_eq!(unsigned_product(two_stages, Width::Bits8, 7, 7), Ok(48));
/// let nine_stages = Design::Staged { stages: 9 };
/// assert_eq!(unsigned_product(nine_stages, Width::Bits8, 7, 7), Err(Refusal::SettingOutOfRange));
/// ```
///
/// [`Refusal::SettingOutOfRange`]: crate::Refusal::SettingOutOfRange
#[derive(Clone, Copy, Debug, PartialEq, Eq, Hash)]
#[non_exhaustive]
pub enum Design {
    /// Design 1: the fractions of both operands are added as logarithms.
    Mitchell,
    /// Design 2: each operand is taken from its nearest power of two, ties upward.
    NearestPower,
    /// Design 3: what one stage leaves of both operands goes to the next.
    Staged {
        /// How many stages there are, 1 to the width.
        stages: u32,
    },
    /// Design 4: design 1 with fractions cut to some bits, and a carry.
    Truncated {
        /// How many bits of each fraction are kept, 1 to one less than the width.
        kept_bits: u32,
    },
    /// Design 5: design 4, and what that leaves of both operands by design 4 once more, with two bits.
    TwiceTruncated {
        /// How many bits of each fraction the first stage keeps, 1 to one less than the width.
        kept_bits: u32,
    },
    /// Numbers that no other variant stands for. Only [`Design::from_numbers`] makes it, so that equal designs compare as equal.
    #[non_exhaustive]
    Unlisted {
        /// The number of the design.
        number: u32,
        /// The setting.
        setting: u32,
    },
}

impl Design {
    /// The design of that number with that setting, known or not. An operation refuses the unknown ones.
    ///
    /// ```
    /// use highvane::{Design, Refusal, Width, unsigned_product};
    ///
    /// assert_eq!(Design::from_numbers(4, 11), Design::Truncated { kept_bits: 11 });
    /// let unknown = Design::from_numbers(9, 0);
    /// assert_eq!(unsigned_product(unknown, Width::Bits8, 3, 3), Err(Refusal::UnknownDesign));
    /// let mitchell_with_setting = Design::from_numbers(1, 5);
    /// assert_eq!(
    ///     unsigned_product(mitchell_with_setting, Width::Bits8, 3, 3),
    ///     Err(Refusal::SettingOutOfRange)
    /// );
    /// ```
    #[must_use]
    pub const fn from_numbers(number: u32, setting: u32) -> Design {
        match (number, setting) {
            (1, 0) => Design::Mitchell,
            (2, 0) => Design::NearestPower,
            (3, stages) => Design::Staged { stages },
            (4, kept_bits) => Design::Truncated { kept_bits },
            (5, kept_bits) => Design::TwiceTruncated { kept_bits },
            (number, setting) => Design::Unlisted { number, setting },
        }
    }

    /// The number of the design, 1 to 5 for those that the library knows.
    ///
    /// ```
    /// use highvane::Design;
    ///
    /// assert_eq!(Design::Staged { stages: 5 }.number(), 3);
    /// ```
    #[must_use]
    pub const fn number(self) -> u32 {
        match self {
            Design::Mitchell => 1,
            Design::NearestPower => 2,
            Design::Staged { .. } => 3,
            Design::Truncated { .. } => 4,
            Design::TwiceTruncated { .. } => 5,
            Design::Unlisted { number, .. } => number,
        }
    }

    /// The setting: 0 for a design that takes none.
    ///
    /// ```
    /// use highvane::Design;
    ///
    /// assert_eq!(Design::Staged { stages: 5 }.setting(), 5);
    /// assert_eq!(Design::Mitchell.setting(), 0);
    /// ```
    #[must_use]
    pub const fn setting(self) -> u32 {
        match self {
            Design::Mitchell | Design::NearestPower => 0,
            Design::Staged { stages } => stages,
            Design::Truncated { kept_bits } | Design::TwiceTruncated { kept_bits } => kept_bits,
            Design::Unlisted { setting, .. } => setting,
        }
    }
}

/// How many bits the operands of a product have.
///
/// ```
/// use highvane::{Design, Refusal, Width, signed_product};
///
/// assert_eq!(signed_product(Design::Mitchell, Width::Bits12, 128, 1), Ok(128));
/// assert_eq!(
///     signed_product(Design::Mitchell, Width::Bits8, 128, 1),
///     Err(Refusal::FirstOperandOutsideWidth)
/// );
/// ```
#[derive(Clone, Copy, Debug, PartialEq, Eq, Hash)]
#[non_exhaustive]
pub enum Width {
    /// 8 bits.
    Bits8,
    /// 12 bits.
    Bits12,
    /// 16 bits, the width of a row.
    Bits16,
    /// 32 bits.
    Bits32,
    /// A width that no other variant stands for. Only [`Width::from_bits`] makes it, so that equal widths compare as equal.
    #[non_exhaustive]
    Unlisted {
        /// The number of bits.
        bits: u32,
    },
}

impl Width {
    /// The width of so many bits, known or not, as `From` gives it too. A product refuses the unknown ones.
    ///
    /// ```
    /// use highvane::{Design, Refusal, Width, unsigned_product};
    ///
    /// assert_eq!(Width::from_bits(32), Width::Bits32);
    /// let refused = unsigned_product(Design::Mitchell, Width::from_bits(7), 3, 3);
    /// assert_eq!(refused, Err(Refusal::UnknownWidth));
    /// ```
    #[must_use]
    pub const fn from_bits(bits: u32) -> Width {
        match bits {
            8 => Width::Bits8,
            12 => Width::Bits12,
            16 => Width::Bits16,
            32 => Width::Bits32,
            bits => Width::Unlisted { bits },
        }
    }

    /// The number of bits.
    ///
    /// ```
    /// use highvane::Width;
    ///
    /// assert_eq!(Width::Bits16.bits(), 16);
    /// assert_eq!(u32::from(Width::Bits16), 16);
    /// ```
    #[must_use]
    pub const fn bits(self) -> u32 {
        match self {
            Width::Bits8 => 8,
            Width::Bits12 => 12,
            Width::Bits16 => 16,
            Width::Bits32 => 32,
            Width::Unlisted { bits } => bits,
        }
    }
}

impl From<u32> for Width {
    fn from(bits: u32) -> Width {
        Width::from_bits(bits)
    }
}

impl From<Width> for u32 {
    fn from(width: Width) -> u32 {
        width.bits()
    }
}
