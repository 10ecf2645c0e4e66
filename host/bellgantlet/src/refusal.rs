use std::fmt;

macro_rules! refusals {
    ($($name:ident = $number:literal: $sentence:literal,)*) => {
        /// Why a call was refused, by the numbers of 01 and 02.
        #[derive(Clone, Copy, Debug, PartialEq, Eq, PartialOrd, Ord, Hash)]
        #[non_exhaustive]
        pub enum Refusal {
            $(#[doc = $sentence] $name,)*
            /// A number that this wrapper does not know: the library is a newer one.
            #[non_exhaustive]
            Unknown(u16),
        }

        impl Refusal {
            /// Those that this wrapper knows, by number.
            pub const ALL: &'static [Refusal] = &[$(Refusal::$name),*];

            pub fn number(self) -> u16 {
                match self { $(Refusal::$name => $number,)* Refusal::Unknown(n) => n }
            }

            /// Of the number that a call gave, any but 0.
            pub(crate) fn of(number: u16) -> Refusal {
                match number { $($number => Refusal::$name,)* n => Refusal::Unknown(n) }
            }

            /// The sentence for a planner.
            pub fn sentence(self) -> &'static str {
                match self { $(Refusal::$name => $sentence,)* Refusal::Unknown(_) => "The call is refused." }
            }
        }
    };
}

refusals! {
    SignatureUnlawful = 1: "The signature is unlawful.",
    TooShort = 2: "A lent table is under 4,290 words or a witness buffer under 4,096.",
    TableUnsound = 3: "The table is not sound.",
    NumberOutside = 4: "The rule number is not 1 to 999.",
    NumberHeld = 5: "The number to enter is held.",
    NotHeld = 6: "The number to withdraw is not held.",
    PatternMalformed = 7: "The pattern is malformed.",
    NotLinear = 8: "The pattern is not linear-plus: some variable would be bound twice, or in one branch only.",
    TooHeavy = 9: "Some part of the pattern weighs over 64.",
    Ambiguous = 10: "The pattern is ambiguous: it could bind its variables in two ways.",
    Full = 11: "64 rules are held, or weights would total over 256.",
    SharesBooking = 12: "The rule shares a booking with a held rule.",
    BookingUnlawful = 13: "The booking is unlawful.",
    TreeTooLarge = 14: "The tree exceeds the lent slice or 32,768 words.",
    TreeBroken = 15: "The tree is broken.",
    PlaceOutside = 16: "The place is not below the booking's length.",
    RangeWrong = 18: "The low of a range exceeds its high, or its high exceeds 100.",
    LogBeyond = 19: "A log entry is above 999, or the log has over 4,096 entries.",
    ChargesMalformed = 20: "The list of open charges has over 48 records, a part of one, a booking length outside 1 to 61, or a word not zero behind it.",
}

impl fmt::Display for Refusal {
    fn fmt(&self, f: &mut fmt::Formatter) -> fmt::Result {
        write!(f, "{} ({})", self.sentence(), self.number())
    }
}

impl std::error::Error for Refusal {}

#[cfg(test)]
mod tests {
    use super::*;

    #[test]
    fn every_number_has_a_refusal() {
        for n in 1..=u16::MAX {
            assert_eq!(Refusal::of(n).number(), n);
        }
        assert_eq!(Refusal::of(17).to_string(), "The call is refused. (17)");
    }
}
