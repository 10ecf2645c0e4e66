//! Which charging plan does a booking get? A safe wrapper of the proved library.
//!
//! A [`Signature`] is checked once; a [`Table`] is always sound under its signature; a [`Tree`] keeps the signature that it
//! was compiled under; [`OpenCharges`] are never malformed. So of the refusals of 01 and 02 a call can give only those that its
//! arguments can still cause.
//!
//! The calls take what they need of the caller's stack, up to [`stack::ENTER`] and its like: a thread that calls is
//! started with that much, and with what the thread itself needs.

mod charges;
mod entered;
pub mod raw;
mod refusal;
pub mod stack;
mod tally;

pub use charges::{Charge, NotPluggedIn, OpenCharges};
pub use entered::NotEntered;
pub use refusal::Refusal;
pub use tally::{tally, Tally};
use std::fmt;
use std::num::NonZeroU16;
use std::sync::Arc;

/// The version of the wrapper and of the header.
pub const VERSION: &str = env!("CARGO_PKG_VERSION");
/// The most words of a lawful signature: 255 constructors with four arguments and one without, as some value must end.
pub const SIGNATURE: usize = 1 + 255 * 6 + 2;
/// Words of a table: how many rules it has, its default plan, the rules.
pub const TABLE: usize = 4290;
/// Words of a witness buffer.
pub const WITNESS: usize = 4096;
/// The most words of a tree.
pub const TREE: usize = 32768;
/// The most words of a booking.
pub const BOOKING: usize = 4096;
/// The most words of a pattern.
pub const PATTERN: usize = 64;
/// Words of a check.
pub const CHECK_WORDS: usize = 835;
/// Rules are numbered from 1 to this.
pub const LAST_RULE: u16 = 999;
/// Rules 1 to 999, and the default as rule 0.
pub const RULE_NUMBERS: usize = 1000;
/// The most entries of a log.
pub const LOG: usize = 4096;
/// The most records of a list of open charges.
pub const CHARGES: usize = 48;
/// Words of a record: rule, plan, booking length, booking, zeros.
pub const CHARGE: usize = 64;
/// The most words of a booking in a record.
pub const CHARGE_BOOKING: usize = 61;
/// Variables are numbered from 0.
pub const VARIABLES: usize = 16;
/// The word of level 0 at a number kind; of level n it is n more.
pub const LEVEL: u16 = 1000;
/// The last level.
pub const LAST_LEVEL: u16 = 100;
/// The place of a variable that is not bound.
pub const UNBOUND: u16 = 65535;

/// A lawful signature.
#[derive(Clone, Debug, PartialEq, Eq)]
pub struct Signature(Arc<[u16]>);

impl Signature {
    /// Refused with [`Refusal::SignatureUnlawful`] alone.
    pub fn new(words: &[u16]) -> Result<Signature, Refusal> {
        // The empty booking is unlawful under every signature, so anything but 1 says that the signature is lawful.
        match raw::part(words, &[], 0).number {
            1 => Err(Refusal::SignatureUnlawful),
            _ => Ok(Signature(words.into())),
        }
    }

    pub fn words(&self) -> &[u16] {
        &self.0
    }

    /// A booking that is lawful under this signature.
    pub fn booking<'a>(&self, words: &'a [u16]) -> Result<Booking<'a>, Refusal> {
        match raw::part(&self.0, words, 0).number {
            0 => Ok(Booking { signature: self.clone(), words }),
            n => Err(Refusal::of(n)),
        }
    }
}

/// A lawful booking of a signature.
#[derive(Clone, Debug)]
pub struct Booking<'a> {
    signature: Signature,
    words: &'a [u16],
}

impl<'a> Booking<'a> {
    pub fn words(&self) -> &'a [u16] {
        self.words
    }

    /// The part that begins at a place; refused with [`Refusal::PlaceOutside`] alone.
    pub fn part(&self, place: usize) -> Result<&'a [u16], Refusal> {
        let p = raw::part(&self.signature.0, self.words, place);
        if p.number != 0 {
            return Err(Refusal::of(p.number));
        }
        Ok(&self.words[p.start..p.start + p.length])
    }
}

/// The check of a booking whose words arrive one by one.
#[derive(Clone, Debug)]
pub struct Checker {
    signature: Signature,
    check: raw::Check,
}

impl Checker {
    /// No word has arrived yet. Takes up to [`stack::CHECK_BEGIN`] bytes.
    pub fn new(signature: &Signature) -> Checker {
        let mut check = raw::Check::default();
        let number = raw::check_begin(&signature.0, &mut check);
        debug_assert_eq!(number, 0);
        Checker { signature: signature.clone(), check }
    }

    /// The next word; refused with [`Refusal::BookingUnlawful`] alone, as is every word behind it: no later word can mend it.
    pub fn push(&mut self, word: u16) -> Result<(), Refusal> {
        match raw::check_step(&self.signature.0, &mut self.check, word) {
            0 => Ok(()),
            n => Err(Refusal::of(n)),
        }
    }

    /// The place of the word that was refused first.
    pub fn went_wrong_at(&self) -> Option<usize> {
        // a refused word is not counted as read
        if self.check.words[0] == 0 { None } else { Some(self.check.words[1] as usize) }
    }

    /// Whether the words so far are a lawful booking; else [`Refusal::BookingUnlawful`], also where some are still due. May be
    /// asked at any time.
    pub fn finish(&self) -> Result<(), Refusal> {
        match raw::check_end(&self.check) {
            0 => Ok(()),
            n => Err(Refusal::of(n)),
        }
    }
}

/// The number of a rule, 1 to 999.
#[derive(Clone, Copy, Debug, PartialEq, Eq, PartialOrd, Ord, Hash)]
pub struct RuleNumber(NonZeroU16);

impl RuleNumber {
    pub fn new(number: u16) -> Result<RuleNumber, Refusal> {
        match NonZeroU16::new(number) {
            Some(n) if number <= LAST_RULE => Ok(RuleNumber(n)),
            _ => Err(Refusal::NumberOutside),
        }
    }

    pub fn get(self) -> u16 {
        self.0.get()
    }
}

impl fmt::Display for RuleNumber {
    fn fmt(&self, f: &mut fmt::Formatter) -> fmt::Result {
        self.0.fmt(f)
    }
}

/// The rules in force and the default plan: always sound under its signature.
#[derive(Clone, Debug, PartialEq, Eq)]
pub struct Table {
    signature: Signature,
    words: Box<[u16]>,
}

impl Table {
    /// A table without rules and with default plan 1.
    pub fn new(signature: &Signature) -> Table {
        let mut words = vec![0; TABLE].into_boxed_slice();
        let number = raw::empty(&mut words);
        debug_assert_eq!(number, 0);
        Table { signature: signature.clone(), words }
    }

    /// A table as [`Table::words`] gave it, say from a disk; refused with 2 or 3. Words behind the table's own are left out.
    /// A version before 0.5 stored another form: enter its rules again.
    pub fn from_words(signature: &Signature, words: &[u16]) -> Result<Table, Refusal> {
        let mut words: Box<[u16]> = words[..words.len().min(TABLE)].into();
        // 0 is no rule's number: a sound table refuses it with 4 and stays as it is.
        match raw::withdraw(&signature.0, 0, &mut words) {
            4 => Ok(Table { signature: signature.clone(), words }),
            n => Err(Refusal::of(n)),
        }
    }

    /// The [`TABLE`] words of the table.
    pub fn words(&self) -> &[u16] {
        &self.words
    }

    pub fn signature(&self) -> &Signature {
        &self.signature
    }

    /// The rules, rising by number: number, plan and pattern of each.
    pub fn rules(&self) -> impl Iterator<Item = (RuleNumber, u16, &[u16])> {
        let mut at = 2;
        (0..self.words[0]).map(move |_| {
            let (number, plan, n) = (self.words[at], self.words[at + 1], self.words[at + 2] as usize);
            let pattern = &self.words[at + 3..at + 3 + n];
            at += 3 + n;
            (RuleNumber(NonZeroU16::new(number).expect("a sound table")), plan, pattern)
        })
    }

    /// Enters a rule; on an error the table is as it was. Takes up to [`stack::ENTER`] bytes.
    pub fn enter(&mut self, number: RuleNumber, plan: u16, pattern: &[u16]) -> Result<(), NotEntered> {
        let mut witness = vec![0; WITNESS];
        let e = raw::enter(&self.signature.0, number.get(), plan, pattern, &mut self.words, &mut witness);
        if e.number == 0 {
            return Ok(());
        }
        witness.truncate(e.length);
        Err(NotEntered::of(e.number, NonZeroU16::new(e.rule).map(RuleNumber), witness))
    }

    /// Withdraws a rule; refused with [`Refusal::NotHeld`] alone. Takes up to [`stack::WITHDRAW`] bytes.
    pub fn withdraw(&mut self, number: RuleNumber) -> Result<(), Refusal> {
        match raw::withdraw(&self.signature.0, number.get(), &mut self.words) {
            0 => Ok(()),
            n => Err(Refusal::of(n)),
        }
    }

    /// The plan of a booking that no rule takes.
    pub fn default_plan(&self) -> u16 {
        self.words[1]
    }

    /// Sets the default plan, any number; trees compiled before keep theirs. A sound table is not refused. Takes up to
    /// [`stack::SET_DEFAULT`] bytes.
    pub fn set_default(&mut self, plan: u16) -> Result<(), Refusal> {
        match raw::set_default(&self.signature.0, plan, &mut self.words) {
            0 => Ok(()),
            n => Err(Refusal::of(n)),
        }
    }

    /// The tree of the rules in force and the default plan; refused with [`Refusal::TreeTooLarge`] alone. Takes up to
    /// [`stack::COMPILE`] bytes.
    pub fn compile(&self) -> Result<Tree, Refusal> {
        let mut space = vec![0; TREE];
        let t = raw::compile(&self.signature.0, &self.words, &mut space);
        if t.number != 0 {
            return Err(Refusal::of(t.number));
        }
        space.truncate(t.length);
        Ok(Tree { signature: self.signature.clone(), words: space.into() })
    }

    /// The answer directly from the table; refused with [`Refusal::BookingUnlawful`] alone. Takes up to [`stack::DECIDE`] bytes.
    pub fn decide(&self, booking: &[u16]) -> Result<Answer, Refusal> {
        Answer::of(raw::decide(&self.signature.0, &self.words, booking))
    }

    /// A gap: a lawful booking that no rule takes, or none where every one is taken. Which one, where there are several, is
    /// open. A sound table is not refused, also one that is too large for a tree. Takes up to [`stack::GAP`] bytes.
    pub fn gap(&self) -> Result<Option<Vec<u16>>, Refusal> {
        let mut witness = vec![0; WITNESS];
        let s = raw::gap(&self.signature.0, &self.words, &mut witness);
        if s.number != 0 {
            return Err(Refusal::of(s.number));
        }
        witness.truncate(s.length);
        // no booking has no words
        Ok(Some(witness).filter(|w| !w.is_empty()))
    }
}

/// A tree with the signature that it was compiled under.
#[derive(Clone, Debug, PartialEq, Eq)]
pub struct Tree {
    signature: Signature,
    words: Arc<[u16]>,
}

impl Tree {
    /// A tree as [`Tree::words`] gave it. What is broken shows when a run walks there, as [`Refusal::TreeBroken`].
    /// A version before 0.5 stored another form, which may not be refused: compile again.
    pub fn from_words(signature: &Signature, words: &[u16]) -> Tree {
        Tree { signature: signature.clone(), words: words.into() }
    }

    pub fn words(&self) -> &[u16] {
        &self.words
    }

    /// The answer by the rules and with the default plan that the tree was compiled from. A tree of [`Table::compile`] refuses
    /// with [`Refusal::BookingUnlawful`] alone.
    pub fn run(&self, booking: &[u16]) -> Result<Answer, Refusal> {
        Answer::of(raw::run(&self.signature.0, &self.words, booking))
    }

    /// The bookings of all open charges answered again, as [`Tree::run`] answers each: rule and plan of a charge become the new
    /// ones, its booking stays. Gives how many plans changed. Where one booking is refused, as `run` refuses it, all charges are as
    /// they were. Takes up to [`stack::REPLAN`] bytes.
    pub fn replan(&self, charges: &mut OpenCharges) -> Result<usize, Refusal> {
        let r = raw::replan(&self.signature.0, &self.words, charges.words_mut());
        match r.number {
            0 => Ok(r.changed.into()),
            n => Err(Refusal::of(n)),
        }
    }
}

/// What a booking gets.
#[derive(Clone, Copy, Debug, PartialEq, Eq)]
pub enum Answer {
    /// No rule takes the booking. This alone says it: a plan may be any number.
    Default { plan: u16 },
    Rule { number: RuleNumber, plan: u16, places: Places },
}

impl Answer {
    fn of(a: raw::Answer) -> Result<Answer, Refusal> {
        if a.number != 0 {
            return Err(Refusal::of(a.number));
        }
        Ok(match NonZeroU16::new(a.rule) {
            None => Answer::Default { plan: a.plan },
            Some(n) => Answer::Rule { number: RuleNumber(n), plan: a.plan, places: Places(a.places) },
        })
    }

    /// The rule that takes the booking, if one does.
    pub fn rule(&self) -> Option<RuleNumber> {
        match self {
            Answer::Default { .. } => None,
            Answer::Rule { number, .. } => Some(*number),
        }
    }

    /// The plan's number.
    pub fn plan(&self) -> u16 {
        match self {
            Answer::Default { plan } | Answer::Rule { plan, .. } => *plan,
        }
    }

    /// The entry of a log, for [`tally`]: the rule's number, 0 for the default.
    pub fn log_entry(&self) -> u16 {
        self.rule().map_or(0, RuleNumber::get)
    }
}

impl fmt::Display for Answer {
    fn fmt(&self, f: &mut fmt::Formatter) -> fmt::Result {
        match self {
            Answer::Default { plan } => write!(f, "no rule, plan {plan}"),
            Answer::Rule { number, plan, places } => {
                write!(f, "rule {number}, plan {plan}")?;
                places.iter().try_for_each(|(x, place)| write!(f, ", variable {x} at {place}"))
            }
        }
    }
}

/// The places that variables 0 to 15 are bound to.
#[derive(Clone, Copy, Debug, PartialEq, Eq)]
pub struct Places([u16; VARIABLES]);

impl Places {
    /// The place of a variable, none where it is unbound or there is no such variable.
    pub fn of(&self, variable: u8) -> Option<usize> {
        self.0.get(variable as usize).filter(|p| **p != UNBOUND).map(|p| *p as usize)
    }

    pub fn iter(&self) -> impl Iterator<Item = (u8, usize)> + '_ {
        (0..VARIABLES as u8).filter_map(|x| self.of(x).map(|p| (x, p)))
    }
}
