use crate::{raw, Refusal, RuleNumber};
use std::fmt;

/// Counts how often each rule stands in a log, such as that of a day; an entry is what [`Answer::log_entry`] gives. The log may be
/// empty, and its rules need not be held anywhere. Refused with [`Refusal::LogBeyond`] alone. Takes up to [`stack::TALLY`] bytes.
///
/// [`Answer::log_entry`]: crate::Answer::log_entry
/// [`stack::TALLY`]: crate::stack::TALLY
pub fn tally(log: &[u16]) -> Result<Tally, Refusal> {
    let t = raw::tally(log);
    match t.number {
        0 => Ok(Tally { total: t.total, counts: t.counts.into() }),
        n => Err(Refusal::of(n)),
    }
}

/// How often each rule stands in a log, and the default, which is no rule.
#[derive(Clone, Debug, PartialEq, Eq)]
pub struct Tally {
    total: u16,
    /// By rule number, the default as rule 0.
    counts: Box<[u16]>,
}

impl Tally {
    /// The number of entries, which is the sum of all counts.
    pub fn total(&self) -> usize {
        self.total.into()
    }

    /// How often a rule stands in the log, or the default, which is none.
    pub fn count(&self, rule: Option<RuleNumber>) -> usize {
        self.counts[rule.map_or(0, RuleNumber::get) as usize].into()
    }

    /// What stands in the log, with its count: the default, then the rules, rising.
    pub fn iter(&self) -> impl Iterator<Item = (Option<RuleNumber>, usize)> + '_ {
        let counted = self.counts.iter().zip(0..).filter(|(count, _)| **count > 0);
        counted.map(|(count, number)| (RuleNumber::new(number).ok(), usize::from(*count)))
    }
}

/// The report: a line for each rule in the log, rising, the default as rule 0, then the total. The last line's newline is left out.
impl fmt::Display for Tally {
    fn fmt(&self, f: &mut fmt::Formatter) -> fmt::Result {
        for (rule, count) in self.iter() {
            writeln!(f, "rule={} count={count}", rule.map_or(0, RuleNumber::get))?;
        }
        write!(f, "total={}", self.total)
    }
}
