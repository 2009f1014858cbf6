//! Why a call was turned down, by number.

use std::fmt;

/// The number of a refusal. Its text says what was wrong.
///
/// ```
/// use jugnayap::{Code, Refusal};
/// let refused = Code::from_file([0, 0]).unwrap_err();
/// assert_eq!(refused, Refusal::FILE_SHORT);
/// assert_eq!(refused.to_string(), "refused 1: code file under 4 bytes");
/// ```
#[derive(Clone, Copy, PartialEq, Eq, Hash)]
pub struct Refusal(pub u32);

macro_rules! refusals {
    ($($name:ident = $number:literal, $text:literal;)*) => {
        impl Refusal {
            $(#[doc = $text] pub const $name: Refusal = Refusal($number);)*

            /// What the number stands for.
            pub fn meaning(self) -> &'static str {
                match self.0 {
                    $($number => $text,)*
                    _ => "no known refusal",
                }
            }
        }
    };
}

refusals! {
    FILE_SHORT = 1, "code file under 4 bytes";
    FILE_SIZES = 2, "number of bits or of checks out of range";
    FILE_COUNT = 3, "a check's count above 32";
    FILE_START = 4, "a check's start wrong, or more than 8192 edges";
    FILE_LENGTH = 5, "code file's length wrong";
    FILE_MEMBER = 6, "a member that is no bit, or not ascending";
    FILE_BIT = 7, "a bit in no check, or in more than 32";
    FRAME_LENGTH = 8, "frame not as long as the code";
    FRAME_NUMBER = 9, "frame number beyond 8191 either way";
    CERTIFICATE_LENGTH = 10, "certificate's length wrong, or more than 4096 entries";
    CERTIFICATE_SCALE = 11, "certificate's scale not 1 to 1023";
    ENTRY = 12, "certificate entry that names no check, or its multiplier not 1 to 16777215";
    ENTRY_MASK = 13, "certificate entry whose mask is no odd set of the check's members";
    ENTRY_ORDER = 14, "certificate entries not ascending by check, then mask";
    WORD = 15, "word not as long as the code, or a byte other than 0 and 1";
    POINT = 16, "spins not as many as the code's bits, or one beyond 4096 either way";
    REQUEST = 17, "no such check, or more than 1024 rounds wanted";
    BUFFER = 41, "a lent buffer too short";
    ENDED = 42, "run already certified or spent";
    STATE = 43, "record, copies, offsets or sums that no run leaves";
}

impl fmt::Debug for Refusal {
    fn fmt(&self, f: &mut fmt::Formatter) -> fmt::Result {
        write!(f, "refused {}", self.0)
    }
}

impl fmt::Display for Refusal {
    fn fmt(&self, f: &mut fmt::Formatter) -> fmt::Result {
        write!(f, "refused {}: {}", self.0, self.meaning())
    }
}

impl std::error::Error for Refusal {}
