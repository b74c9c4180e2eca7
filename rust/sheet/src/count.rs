use std::error::Error;
use std::fmt;

use crate::words::BLANK;

/// A count on a sheet, 0 to 65,534. The number 65,535 is none: on the institute's sheets it means "not counted". A field of a sheet is an
/// `Option<Count>`, and `None` is a field that was not counted.
///
/// ```
/// use sheet::{Count, NotACount};
///
/// // Numbers that were counted.
/// assert_eq!(Count::try_from(65_534_u16)?.number(), 65_534);
/// assert_eq!(Count::try_from(65_535_u16), Err(NotACount));
/// assert_eq!(Count::try_from(70_000_u32), Err(NotACount));
///
/// // The words of a sheet, which has blanks.
/// let fields = [4, 65_535, 6].map(Count::from_word);
/// assert_eq!(fields, [Some(Count::from(4)), None, Some(Count::from(6))]);
/// # Ok::<(), NotACount>(())
/// ```
#[derive(Clone, Copy, PartialEq, Eq, PartialOrd, Ord, Hash)]
pub struct Count(u16);

impl Count {
    /// The count that a word of a sheet stands for; `None` for 65,535, a field that was not counted. A number that was counted is no such
    /// word: it goes through `try_from`, which takes no blank for a count.
    pub const fn from_word(word: u16) -> Option<Count> {
        match word {
            BLANK => None,
            number => Some(Count(number)),
        }
    }

    /// The word that stands on a sheet for a field.
    pub(crate) fn to_word(field: Option<Count>) -> u16 {
        field.map_or(BLANK, Count::number)
    }

    /// The count as a number.
    pub const fn number(self) -> u16 {
        self.0
    }
}

impl From<u8> for Count {
    fn from(number: u8) -> Count {
        Count(number.into())
    }
}

impl TryFrom<u16> for Count {
    type Error = NotACount;

    fn try_from(number: u16) -> Result<Count, NotACount> {
        Count::from_word(number).ok_or(NotACount)
    }
}

impl TryFrom<u32> for Count {
    type Error = NotACount;

    fn try_from(number: u32) -> Result<Count, NotACount> {
        u16::try_from(number).map_err(|_| NotACount)?.try_into()
    }
}

impl TryFrom<usize> for Count {
    type Error = NotACount;

    fn try_from(number: usize) -> Result<Count, NotACount> {
        u16::try_from(number).map_err(|_| NotACount)?.try_into()
    }
}

impl From<Count> for u16 {
    fn from(count: Count) -> u16 {
        count.0
    }
}

impl From<Count> for u32 {
    fn from(count: Count) -> u32 {
        count.0.into()
    }
}

/// A count is the number that was counted; none equals 65,535.
impl PartialEq<u16> for Count {
    fn eq(&self, number: &u16) -> bool {
        self.0 == *number
    }
}

impl fmt::Debug for Count {
    fn fmt(&self, f: &mut fmt::Formatter<'_>) -> fmt::Result {
        self.0.fmt(f)
    }
}

impl fmt::Display for Count {
    fn fmt(&self, f: &mut fmt::Formatter<'_>) -> fmt::Result {
        self.0.fmt(f)
    }
}

/// That a number is no [`Count`]: it is above 65,534.
#[derive(Clone, Copy, Debug, PartialEq, Eq)]
pub struct NotACount;

impl fmt::Display for NotACount {
    fn fmt(&self, f: &mut fmt::Formatter<'_>) -> fmt::Result {
        f.write_str("a count is 0 to 65,534 (on a sheet 65,535 means \"not counted\")")
    }
}

impl Error for NotACount {}
