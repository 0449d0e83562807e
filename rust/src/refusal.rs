use std::error::Error;
use std::fmt;

/// Declares the refusals once: name, number and reason.
macro_rules! refusals {
    ($($name:ident = $number:literal, $reason:literal;)*) => {
        /// Why a job was refused. Where several reasons apply, the answer is the first in the order in which a job is checked; see `tdea.h`.
        #[derive(Clone, Copy, Debug, PartialEq, Eq, Hash)]
        #[non_exhaustive]
        pub enum Refusal {
            $(
                #[doc = concat!("Number ", $number, ": ", $reason, ".")]
                $name,
            )*
            /// A number that this crate has no name for. The library as proved gives none; a later one may, and it is a refusal all the same:
            /// `out` is as it was. Only [`run`](crate::run) makes this variant, and never with a number that has a name.
            #[non_exhaustive]
            Unnamed(u64),
        }

        impl Refusal {
            pub(crate) fn from_number(number: u64) -> Refusal {
                match number {
                    $($number => Refusal::$name,)*
                    other => Refusal::Unnamed(other),
                }
            }

            /// The number that names the reason, as the C function and the program tell it.
            pub fn number(self) -> u64 {
                match self {
                    $(Refusal::$name => $number,)*
                    Refusal::Unnamed(number) => number,
                }
            }

            fn reason(self) -> &'static str {
                match self {
                    $(Refusal::$name => $reason,)*
                    Refusal::Unnamed(_) => "a reason that this version has no name for",
                }
            }
        }
    };
}

refusals! {
    KeyLength = 1, "the keys are neither 8 nor 24 bytes";
    KeyParity = 2, "a key byte has an even count of ones";
    SameKeys = 3, "the three keys are the same";
    UnknownCode = 4, "the code names no mode";
    InitialValueLength = 5, "the initial values have another length than the mode's";
    OutputLength = 6, "the output is shorter than the data";
    UnitWidth = 7, "a unit is too wide for the mode";
    UnitLimit = 8, "there are more units than a cartridge takes, which no job has";
    FieldTruncated = 9, "a field has fewer bytes than it needs";
    FieldTag = 10, "a field has another tag than the one due";
    TrailingBytes = 11, "there are bytes behind the last field";
    FieldLength = 12, "the code or the direction is not one byte";
    UnknownDirection = 13, "the direction is neither 1 nor 2";
    DataLength = 14, "the data is longer than 32,768 bytes";
    PartialUnit = 15, "the data is not whole units";
}

impl fmt::Display for Refusal {
    fn fmt(&self, f: &mut fmt::Formatter<'_>) -> fmt::Result {
        write!(f, "refused {}: {}", self.number(), self.reason())
    }
}

impl Error for Refusal {}

#[cfg(test)]
mod tests {
    use super::Refusal;

    #[test]
    fn numbers_and_names_go_together() {
        for number in 0..=20 {
            assert_eq!(Refusal::from_number(number).number(), number);
        }
        for number in 1..=15 {
            assert!(!matches!(Refusal::from_number(number), Refusal::Unnamed(_)));
        }
    }

    #[test]
    fn a_number_without_a_name_is_shown() {
        let refusal = Refusal::from_number(16);
        assert_eq!(refusal, Refusal::Unnamed(16));
        assert_eq!(refusal.to_string(), "refused 16: a reason that this version has no name for");
        assert_eq!(Refusal::KeyParity.to_string(), "refused 2: a key byte has an even count of ones");
    }
}
