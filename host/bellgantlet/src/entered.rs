use crate::{Refusal, RuleNumber};
use std::fmt;

/// Why a rule was not entered. A sound table and a lawful signature leave only these.
#[derive(Clone, Debug, PartialEq, Eq)]
#[non_exhaustive]
pub enum NotEntered {
    /// 5: the number is held.
    NumberHeld,
    /// 7: the pattern is malformed.
    PatternMalformed,
    /// 18: the low of a range exceeds its high, or its high exceeds 100.
    RangeWrong,
    /// 8: it is not linear-plus.
    NotLinear,
    /// 9: some part of it weighs over 64.
    TooHeavy,
    /// 10: it is ambiguous.
    Ambiguous,
    /// 11: 64 rules are held, or weights would total over 256.
    Full,
    /// 12: it shares a booking with a held rule, the lowest such one; with such a booking.
    Shares { rule: RuleNumber, booking: Vec<u16> },
    /// Another number: the library is a newer one.
    #[non_exhaustive]
    Unknown(u16),
}

impl NotEntered {
    /// Of what an entry gave: its number, and on 12 the rule and the booking.
    pub(crate) fn of(number: u16, rule: Option<RuleNumber>, booking: Vec<u16>) -> NotEntered {
        match (number, rule) {
            (5, _) => NotEntered::NumberHeld,
            (7, _) => NotEntered::PatternMalformed,
            (18, _) => NotEntered::RangeWrong,
            (8, _) => NotEntered::NotLinear,
            (9, _) => NotEntered::TooHeavy,
            (10, _) => NotEntered::Ambiguous,
            (11, _) => NotEntered::Full,
            (12, Some(rule)) => NotEntered::Shares { rule, booking },
            (n, _) => NotEntered::Unknown(n),
        }
    }

    pub fn refusal(&self) -> Refusal {
        match self {
            NotEntered::NumberHeld => Refusal::NumberHeld,
            NotEntered::PatternMalformed => Refusal::PatternMalformed,
            NotEntered::RangeWrong => Refusal::RangeWrong,
            NotEntered::NotLinear => Refusal::NotLinear,
            NotEntered::TooHeavy => Refusal::TooHeavy,
            NotEntered::Ambiguous => Refusal::Ambiguous,
            NotEntered::Full => Refusal::Full,
            NotEntered::Shares { .. } => Refusal::SharesBooking,
            NotEntered::Unknown(n) => Refusal::of(*n),
        }
    }
}

/// So that `?` also works where a [`Refusal`] is due.
impl From<NotEntered> for Refusal {
    fn from(e: NotEntered) -> Refusal {
        e.refusal()
    }
}

impl fmt::Display for NotEntered {
    fn fmt(&self, f: &mut fmt::Formatter) -> fmt::Result {
        self.refusal().fmt(f)?;
        match self {
            NotEntered::Shares { rule, booking } => write!(f, ": rule {rule}, booking {booking:?}"),
            _ => Ok(()),
        }
    }
}

impl std::error::Error for NotEntered {}

#[cfg(test)]
mod tests {
    use super::*;

    #[test]
    fn numbers_stay() {
        let seven = RuleNumber::new(7).ok();
        for n in 1..=20 {
            assert_eq!(NotEntered::of(n, seven, vec![]).refusal().number(), n);
        }
    }
}
