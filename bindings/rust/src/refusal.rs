//! Refusals: numbers with names and words, as bindings/refusals.txt says them.
use std::error::Error;
use std::fmt;

/// Why a call was refused: the first number whose condition holds, in the order in which the call tests. The names are those of the C header without
/// `FORTHWN_`.
///
/// ```
/// use forthwn::{Refusal, Table};
///
/// let refusal = Table::read(b"no table").unwrap_err();
/// assert_eq!(refusal, Refusal::CUT_SHORT);
/// assert_eq!((refusal.number(), refusal.name()), (1, "CUT_SHORT"));
/// assert_eq!(refusal.to_string(), "refused 1: a record runs past the end of the bytes");
/// ```
#[derive(Clone, Copy, PartialEq, Eq, PartialOrd, Ord, Hash)]
pub struct Refusal(u32);

macro_rules! refusals {
    ($($number:literal $name:ident $words:literal)*) => {
        impl Refusal {
            $(
                #[doc = concat!("Refusal ", $number, ": ", $words, ".")]
                pub const $name: Refusal = Refusal($number);
            )*

            /// All refusals, by number.
            pub const ALL: &[Refusal] = &[$(Refusal::$name),*];

            /// Its name.
            pub fn name(self) -> &'static str {
                match self.0 {
                    $($number => stringify!($name),)*
                    _ => "UNKNOWN",
                }
            }

            /// What it says, for people.
            pub fn words(self) -> &'static str {
                match self.0 {
                    $($number => $words,)*
                    _ => "no refusal of that number",
                }
            }
        }
    };
}

refusals! {
    1 CUT_SHORT "a record runs past the end of the bytes"
    2 BAD_RECORDS "records are not of the kinds, lengths or order of a table"
    3 BAD_HEAD "the number of states, arcs or finals, or the start, is out of range"
    4 BAD_NUMBER "final or arc records are not as many as the head says"
    5 BAD_STATE "a state number is not below the number of states"
    6 BAD_ORDER "final states do not rise, or sources of arcs fall"
    7 BAD_LABEL "output 65535 beside another input"
    8 BAD_WEIGHT "a weight below -1000000 or above 1000000"
    9 BAD_CODE "the code has more than 64 labels, half a label, or a label 0 or 65535"
    10 SHORT_BUFFER "a lent buffer is too short"
    11 TOO_MANY_STATES "more than 1024 states are reached"
    12 TOO_MANY_ARCS "more than 3072 arcs leave the reached states"
    13 TOO_HEAVY "a composed arc or final weight below -1000000 or above 1000000"
    14 ENDLESS "infinitely many accepting paths"
    15 NO_SUCH_PATH "no path of that number"
    16 NO_PATH "no accepting path"
    18 ANY_INPUT "an arc for any symbol (input 65535) where none may be"
    19 NEGATIVE_CYCLE "a cycle below 0 on a path to a final state"
}

impl Refusal {
    /// The refusal that a call returned; none where it returned 0.
    pub(crate) fn from_call(number: u32) -> Option<Refusal> {
        (number != 0).then_some(Refusal(number))
    }

    /// Its number.
    pub fn number(self) -> u32 {
        self.0
    }
}

impl fmt::Display for Refusal {
    fn fmt(&self, f: &mut fmt::Formatter<'_>) -> fmt::Result {
        write!(f, "refused {}: {}", self.number(), self.words())
    }
}

// With the words, since that is what a `main` that returns it prints.
impl fmt::Debug for Refusal {
    fn fmt(&self, f: &mut fmt::Formatter<'_>) -> fmt::Result {
        f.debug_tuple("Refusal").field(&self.number()).field(&self.words()).finish()
    }
}

impl Error for Refusal {}
