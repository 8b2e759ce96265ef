//! The class of a substance.

use crate::decline::Decline;

/// The class of a substance.
///
/// ```
/// use prtr::{Class, Decline};
///
/// assert_eq!(Class::try_from(2), Ok(Class::Two));
/// assert_eq!(Class::try_from(3), Err(Decline::Layout));
/// assert_eq!(u8::from(Class::One), 1);
/// ```
#[derive(Clone, Copy, Debug, PartialEq, Eq, Hash)]
#[repr(u8)]
pub enum Class {
    /// Class one.
    One = 1,
    /// Specific class one.
    Two = 2,
}

impl From<Class> for u8 {
    #[inline]
    fn from(class: Class) -> u8 {
        class as u8
    }
}

impl TryFrom<u8> for Class {
    type Error = Decline;

    /// Declines a number other than 1 and 2 by [`Decline::Layout`].
    #[inline]
    fn try_from(number: u8) -> Result<Class, Decline> {
        match number {
            1 => Ok(Class::One),
            2 => Ok(Class::Two),
            _ => Err(Decline::Layout),
        }
    }
}
