use crate::{raw, Answer, Refusal, RuleNumber, CHARGE, CHARGES, CHARGE_BOOKING};
use std::fmt;

/// The open charges, of the buses on the plug: up to [`CHARGES`], in the order in which they were plugged in, each with its booking
/// and the rule and plan that it got. [`Tree::replan`] answers their bookings again; none of these lists is malformed.
///
/// [`Tree::replan`]: crate::Tree::replan
#[derive(Clone, Debug, Default, PartialEq, Eq)]
pub struct OpenCharges {
    /// A record of [`CHARGE`] words for each.
    words: Vec<u16>,
}

impl OpenCharges {
    /// No bus is on the plug.
    pub fn new() -> OpenCharges {
        OpenCharges::default()
    }

    /// A list as [`OpenCharges::words`] gave it, say from a disk; refused with [`Refusal::ChargesMalformed`] alone. Rules and plans
    /// may be any words, as they are to [`Tree::replan`]. Takes up to [`stack::REPLAN`] bytes.
    ///
    /// [`Tree::replan`]: crate::Tree::replan
    /// [`stack::REPLAN`]: crate::stack::REPLAN
    pub fn from_words(words: &[u16]) -> Result<OpenCharges, Refusal> {
        let mut words = words.to_vec();
        // No booking is answered by a tree of no words: whatever is not malformed is refused otherwise, and stays as it is.
        match Refusal::of(raw::replan(&LEAST_SIGNATURE, &[], &mut words).number) {
            Refusal::ChargesMalformed => Err(Refusal::ChargesMalformed),
            _ => Ok(OpenCharges { words }),
        }
    }

    /// The records, of [`CHARGE`] words each.
    pub fn words(&self) -> &[u16] {
        &self.words
    }

    /// For the call that answers the bookings again, which leaves a list that is not malformed.
    pub(crate) fn words_mut(&mut self) -> &mut [u16] {
        &mut self.words
    }

    pub fn len(&self) -> usize {
        self.words.len() / CHARGE
    }

    pub fn is_empty(&self) -> bool {
        self.words.is_empty()
    }

    /// One more charge, the last one: what its booking was answered with, and the booking. On an error the charges are as they were.
    pub fn plug_in(&mut self, answer: &Answer, booking: &[u16]) -> Result<(), NotPluggedIn> {
        match booking.len() {
            0 => Err(NotPluggedIn::NoBooking),
            n if n > CHARGE_BOOKING => Err(NotPluggedIn::BookingTooLong),
            _ if self.len() == CHARGES => Err(NotPluggedIn::Full),
            n => {
                let end = self.words.len() + CHARGE;
                self.words.extend([answer.log_entry(), answer.plan(), n as u16]);
                self.words.extend(booking);
                self.words.resize(end, 0);
                Ok(())
            }
        }
    }

    /// The charge ends; those behind it move up. False where there is no such charge.
    pub fn unplug(&mut self, index: usize) -> bool {
        let there = index < self.len();
        if there {
            self.words.drain(index * CHARGE..(index + 1) * CHARGE);
        }
        there
    }

    pub fn get(&self, index: usize) -> Option<Charge<'_>> {
        self.iter().nth(index)
    }

    /// The charges in order.
    pub fn iter(&self) -> impl Iterator<Item = Charge<'_>> {
        self.words.chunks_exact(CHARGE).map(|record| Charge { record })
    }
}

/// One constructor without arguments.
const LEAST_SIGNATURE: [u16; 3] = [1, 0, 0];

/// An open charge: its booking, and the rule and the plan that it got.
#[derive(Clone, Copy, Debug, PartialEq, Eq)]
pub struct Charge<'a> {
    record: &'a [u16],
}

impl<'a> Charge<'a> {
    /// The rule that took the booking, if one did. Of a list from [`OpenCharges::from_words`] that no tree has answered, also none
    /// where the word is no rule's number.
    pub fn rule(&self) -> Option<RuleNumber> {
        RuleNumber::new(self.record[0]).ok()
    }

    /// The plan's number.
    pub fn plan(&self) -> u16 {
        self.record[1]
    }

    pub fn booking(&self) -> &'a [u16] {
        &self.record[3..3 + self.record[2] as usize]
    }
}

impl fmt::Display for Charge<'_> {
    fn fmt(&self, f: &mut fmt::Formatter) -> fmt::Result {
        match self.rule() {
            None => write!(f, "no rule, plan {}", self.plan()),
            Some(number) => write!(f, "rule {number}, plan {}", self.plan()),
        }
    }
}

/// Why a charge was not plugged in: its record would be malformed, or the list.
#[derive(Clone, Copy, Debug, PartialEq, Eq)]
pub enum NotPluggedIn {
    /// The booking has no words.
    NoBooking,
    /// The booking has over [`CHARGE_BOOKING`] words.
    BookingTooLong,
    /// [`CHARGES`] charges are open.
    Full,
}

impl NotPluggedIn {
    /// What the call would refuse such a list with.
    pub fn refusal(&self) -> Refusal {
        Refusal::ChargesMalformed
    }
}

/// So that `?` also works where a [`Refusal`] is due.
impl From<NotPluggedIn> for Refusal {
    fn from(e: NotPluggedIn) -> Refusal {
        e.refusal()
    }
}

impl fmt::Display for NotPluggedIn {
    fn fmt(&self, f: &mut fmt::Formatter) -> fmt::Result {
        f.write_str(match self {
            NotPluggedIn::NoBooking => "The booking has no words.",
            NotPluggedIn::BookingTooLong => "The booking has over 61 words.",
            NotPluggedIn::Full => "48 charges are open.",
        })
    }
}

impl std::error::Error for NotPluggedIn {}
