//! Which block of a journal was refused.

use std::error::Error;
use std::fmt;

use crate::decline::Decline;

/// The first block of a journal that was refused, and why.
///
/// ```
/// use prtr::{Decline, Refused};
///
/// let refused = prtr::filing(b"no journal").unwrap_err();
/// assert_eq!(refused, Refused { block: 0, decline: Decline::NotABlock });
/// assert_eq!(
///     refused.to_string(),
///     "block 0 refused, declined by 1: the block isn't 512 bytes or lacks its tag"
/// );
/// ```
#[derive(Clone, Copy, Debug, PartialEq, Eq, Hash)]
pub struct Refused {
    /// The block's place in the journal, from 0.
    pub block: u64,
    /// Why it was refused, by one of the first eleven declines.
    pub decline: Decline,
}

impl fmt::Display for Refused {
    fn fmt(&self, f: &mut fmt::Formatter<'_>) -> fmt::Result {
        write!(f, "block {} refused, {}", self.block, self.decline)
    }
}

impl Error for Refused {}

/// What the library's line `refused PLACE NUMBER` says; `None` for the text of a return.
pub(crate) fn read(text: &str) -> Option<Refused> {
    let rest = text.strip_prefix("refused")?;
    match place_and_number(rest) {
        Some(refused) => Some(refused),
        None => panic!("libprtr.a wrote {text:?}, which is no line of a refused journal"),
    }
}

/// What stands behind the word `refused`.
fn place_and_number(rest: &str) -> Option<Refused> {
    let fields = rest.strip_prefix(' ')?.strip_suffix('\n')?;
    let (place, number) = fields.split_once(' ')?;
    Some(Refused {
        block: place.parse().ok()?,
        decline: Decline::from_number(number.parse().ok()?)?,
    })
}

#[cfg(test)]
mod tests {
    use super::*;

    #[test]
    fn a_line_is_read() {
        let refused = Refused {
            block: 408,
            decline: Decline::Short,
        };
        assert_eq!(read("refused 408 11\n"), Some(refused));
        assert_eq!(read("substance handled due\n"), None);
    }

    #[test]
    fn no_other_line_is_read() {
        for rest in [
            "", "\n", " 1 1", " 1\n", " 1 15\n", " 1 0\n", " 1 1 1\n", " x 1\n",
        ] {
            assert_eq!(place_and_number(rest), None, "{rest:?}");
        }
    }

    #[test]
    #[should_panic(expected = "which is no line of a refused journal")]
    fn an_unknown_number_stops() {
        read("refused 1 15\n");
    }
}
