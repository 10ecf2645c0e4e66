//! Each call made of the library and of the reference, with every lent word compared, and the words around what is lent.
use crate::calls::{sound, Answer, Model, WITNESS};
use crate::charges::{replan, Replanned, RECORD};
use crate::gap::is_gap;
use crate::pattern;
use crate::signature::Signature;
use crate::stepped;
use crate::tally::{tally, Tallied};
use bellgantlet::raw;
use std::collections::BTreeMap;

const GUARD: usize = 4;
const GUARDS: [u16; GUARD] = [51966, 47806, 57005, 48879];

/// Words lent with guards around them.
struct Lent(Vec<u16>);

impl Lent {
    fn of(words: &[u16]) -> Lent {
        Lent([&GUARDS, words, &GUARDS].concat())
    }

    fn words(&mut self) -> &mut [u16] {
        let n = self.0.len();
        &mut self.0[GUARD..n - GUARD]
    }

    fn after(&self) -> &[u16] {
        let n = self.0.len();
        assert!(self.0[..GUARD] == GUARDS && self.0[n - GUARD..] == GUARDS, "a word around a lent slice was written");
        &self.0[GUARD..n - GUARD]
    }
}

/// A state of the library, lent with guards around it, and the reference's.
pub struct States {
    library: LentCheck,
    reference: Vec<u16>,
}

#[repr(C)]
struct LentCheck {
    before: [u16; GUARD],
    check: raw::Check,
    after: [u16; GUARD],
}

impl States {
    /// The same words, whatever they are.
    pub fn of(words: &[u16]) -> States {
        let check = raw::Check { words: words.try_into().unwrap() };
        States { library: LentCheck { before: GUARDS, check, after: GUARDS }, reference: words.to_vec() }
    }

    pub fn words(&self) -> &[u16] {
        &self.reference
    }

    fn after(&self) -> &[u16] {
        let l = &self.library;
        assert!(l.before == GUARDS && l.after == GUARDS, "a word around a state was written");
        &l.check.words
    }
}

/// Of a booking stepped, the numbers are asked after each of so many words, and at the end.
const ASKED: usize = 64;

pub struct Compare {
    pub model: Model,
    /// What was stepped last: the calls of one test often have the same booking.
    last: (Vec<u16>, Vec<u16>),
    /// How often each call gave each number.
    pub given: BTreeMap<(&'static str, u16), u64>,
}

macro_rules! same {
    ($call:expr, $what:expr, $library:expr, $reference:expr, $($input:expr),*) => {
        if $library != $reference {
            eprintln!("difference in {}, {}:\n  library   {:?}\n  reference {:?}", $call, $what, $library, $reference);
            $(eprintln!("  {} = {:?}", stringify!($input), $input);)*
            std::process::exit(1);
        }
    };
}

fn form(a: raw::Answer) -> Answer {
    (a.number, a.rule, a.plan, a.places)
}

impl Compare {
    pub fn new() -> Compare {
        Compare { model: Model::default(), last: (vec![], vec![]), given: BTreeMap::new() }
    }

    pub fn calls(&self) -> u64 {
        self.given.values().sum()
    }

    /// Those of checks word by word.
    pub fn of_checks(&self) -> u64 {
        self.given.iter().filter(|((call, _), _)| call.starts_with("check_")).map(|(_, n)| n).sum()
    }

    fn count(&mut self, call: &'static str, number: u16) {
        *self.given.entry((call, number)).or_insert(0) += 1;
    }

    pub fn empty(&mut self, table: &mut Vec<u16>) -> u16 {
        let mut lent = Lent::of(table);
        let number = raw::empty(lent.words());
        let expected = self.model.empty(table);
        same!("empty", "number", number, expected.0, table);
        same!("empty", "table", lent.after(), &expected.1[..], table);
        *table = expected.1;
        self.count("empty", number);
        number
    }

    pub fn enter(&mut self, sig: &[u16], number: u16, plan: u16, pattern: &[u16], table: &mut Vec<u16>, witness: usize) -> u16 {
        let mut lent = Lent::of(table);
        let before: Vec<u16> = (0..witness).map(|i| (i * 7 + 40000) as u16).collect();
        let mut shown = Lent::of(&before);
        let e = raw::enter(sig, number, plan, pattern, lent.words(), shown.words());
        let expected = self.model.enter(sig, number, plan, pattern, table, witness);
        same!("enter", "number", e.number, expected.0, sig, number, plan, pattern, table, witness);
        same!("enter", "rule", e.rule, expected.1, sig, number, plan, pattern, table, witness);
        same!("enter", "table", lent.after(), &expected.2[..], sig, number, plan, pattern, table, witness);
        if e.number == 12 {
            let lawful = e.length <= WITNESS && both_take(sig, pattern, table, e.rule, &shown.after()[..e.length]);
            same!("enter", "booking lawful and taken by both", lawful, true, sig, number, pattern, table, e);
        } else {
            same!("enter", "length", e.length, 0, sig, number, plan, pattern, table, witness);
        }
        same!("enter", "rest of the witness buffer", &shown.after()[e.length..], &before[e.length..], sig, number, pattern, table, e);
        *table = expected.2;
        self.count("enter", e.number);
        e.number
    }

    pub fn withdraw(&mut self, sig: &[u16], number: u16, table: &mut Vec<u16>) -> u16 {
        let mut lent = Lent::of(table);
        let got = raw::withdraw(sig, number, lent.words());
        let expected = self.model.withdraw(sig, number, table);
        same!("withdraw", "number", got, expected.0, sig, number, table);
        same!("withdraw", "table", lent.after(), &expected.1[..], sig, number, table);
        *table = expected.1;
        self.count("withdraw", got);
        got
    }

    pub fn set_default(&mut self, sig: &[u16], plan: u16, table: &mut Vec<u16>) -> u16 {
        let mut lent = Lent::of(table);
        let got = raw::set_default(sig, plan, lent.words());
        let expected = self.model.set_default(sig, plan, table);
        same!("set_default", "number", got, expected.0, sig, plan, table);
        same!("set_default", "table", lent.after(), &expected.1[..], sig, plan, table);
        *table = expected.1;
        self.count("set_default", got);
        got
    }

    /// The tree, or the number of the refusal.
    pub fn compile(&mut self, sig: &[u16], table: &[u16], space: &[u16]) -> Result<Vec<u16>, u16> {
        let mut lent = Lent::of(space);
        let t = raw::compile(sig, table, lent.words());
        let expected = self.model.compile(sig, table, space);
        same!("compile", "number", t.number, expected.0, sig, table, space.len());
        same!("compile", "length", t.length, expected.1, sig, table, space.len());
        same!("compile", "space", lent.after(), &expected.2[..], sig, table, space.len());
        self.count("compile", t.number);
        if t.number == 0 { Ok(expected.2[..t.length].to_vec()) } else { Err(t.number) }
    }

    pub fn decide(&mut self, sig: &[u16], table: &[u16], booking: &[u16]) -> Answer {
        let got = form(raw::decide(sig, table, booking));
        let expected = self.model.decide(sig, table, booking);
        same!("decide", "answer", got, expected, sig, table, booking);
        self.count("decide", got.0);
        self.stepped_too(sig, booking);
        got
    }

    /// The booking that is shown, if there is one, or the number of the refusal.
    pub fn gap(&mut self, sig: &[u16], table: &[u16], witness: &[u16]) -> Result<Option<Vec<u16>>, u16> {
        let mut lent = Lent::of(witness);
        let g = raw::gap(sig, table, lent.words());
        let expected = self.model.gap(sig, table, witness.len());
        same!("gap", "number", g.number, expected.0, sig, table, witness.len());
        let some = g.length > 0;
        same!("gap", "whether a booking is shown", some, expected.1.is_some(), sig, table, expected.1);
        let shown = lent.after().get(..g.length).map(|b| b.to_vec());
        if some {
            let lawful = shown.as_ref().is_some_and(|b| untaken(sig, table, b));
            same!("gap", "booking lawful and taken by no rule", lawful, true, sig, table, g, shown);
        }
        same!("gap", "rest of the witness buffer", &lent.after()[g.length..], &witness[g.length..], sig, table, g);
        self.count("gap", g.number);
        if g.number == 0 { Ok(shown.filter(|b| !b.is_empty())) } else { Err(g.number) }
    }

    pub fn run(&mut self, sig: &[u16], tree: &[u16], booking: &[u16]) -> Answer {
        let got = form(raw::run(sig, tree, booking));
        let expected = self.model.run(sig, tree, booking);
        same!("run", "answer", got, expected, sig, tree, booking);
        self.count("run", got.0);
        self.stepped_too(sig, booking);
        got
    }

    pub fn part(&mut self, sig: &[u16], booking: &[u16], place: usize) -> u16 {
        let p = raw::part(sig, booking, place);
        let expected = self.model.part(sig, booking, place);
        same!("part", "number", p.number, expected.0, sig, booking, place);
        same!("part", "start", p.start, if p.number == 0 { place } else { 0 }, sig, booking, place);
        same!("part", "words", &booking[p.start..p.start + p.length], &expected.1[..], sig, booking, place);
        self.count("part", p.number);
        self.stepped_too(sig, booking);
        p.number
    }

    pub fn tally(&mut self, log: &[u16]) -> Tallied {
        let t = raw::tally(log);
        let lines = t.counts.iter().zip(0..).filter(|(count, _)| **count != 0).map(|(count, rule)| (rule, *count));
        let got = (t.number, lines.collect(), t.total);
        same!("tally", "number, counts and total", got, tally(log), log);
        self.count("tally", t.number);
        got
    }

    /// Open charges answered again: a second time by the same tree, which changes nothing, and each as by a run of its own.
    pub fn replan(&mut self, sig: &[u16], tree: &[u16], charges: &[u16]) -> Replanned {
        let expected = replan(sig, tree, charges);
        self.replan_once(sig, tree, charges, &expected);
        if expected.0 == 0 {
            self.replan_once(sig, tree, &expected.2, &(0, 0, expected.2.clone()));
        }
        if ![1, 20].contains(&expected.0) {
            let single = singles(sig, tree, charges);
            same!("replan", "number and list by single runs", single, (expected.0, expected.2.clone()), sig, tree, charges);
        }
        expected
    }

    fn replan_once(&mut self, sig: &[u16], tree: &[u16], charges: &[u16], expected: &Replanned) {
        let mut lent = Lent::of(charges);
        let r = raw::replan(sig, tree, lent.words());
        same!("replan", "number and count", (r.number, r.changed), (expected.0, expected.1), sig, tree, charges);
        same!("replan", "list", lent.after(), &expected.2[..], sig, tree, charges);
        self.count("replan", r.number);
    }

    /// The states before the first word, whatever the words were before.
    pub fn check_begin(&mut self, sig: &[u16]) -> States {
        let old: Vec<u16> = (0..stepped::STATE).map(|i| (i * 7 + sig.len()) as u16).collect();
        let mut states = States::of(&old);
        let number = raw::check_begin(sig, &mut states.library.check);
        states.reference = stepped::begin(sig);
        same!("check_begin", "number", number, states.words()[0], sig);
        same!("check_begin", "state", states.after(), states.words(), sig);
        self.count("check_begin", number);
        states
    }

    pub fn check_step(&mut self, sig: &[u16], states: &mut States, word: u16) -> u16 {
        let number = raw::check_step(sig, &mut states.library.check, word);
        let before = states.reference.clone();
        let expected = stepped::step(sig, &mut states.reference, word);
        same!("check_step", "number", number, expected, sig, before, word);
        same!("check_step", "state", states.after(), states.words(), sig, before, word);
        self.count("check_step", number);
        number
    }

    pub fn check_end(&mut self, states: &States) -> u16 {
        let number = raw::check_end(&states.library.check);
        same!("check_end", "number", number, stepped::end(states.words()), states.words());
        same!("check_end", "state", states.after(), states.words(), number);
        self.count("check_end", number);
        number
    }

    /// A booking checked word by word: the numbers of its first words, up to 64, and of all. They are those of the check of
    /// the same words whole, and it goes wrong where a word may not stand.
    pub fn stepped(&mut self, sig: &[u16], booking: &[u16]) -> (Vec<u16>, u16) {
        let whole = Signature::read(sig);
        let number = |words: &[u16]| match &whole {
            None => 1,
            Some(s) => if s.read_booking(words).is_some() { 0 } else { 13 },
        };
        let mut states = self.check_begin(sig);
        let mut first = vec![];
        let mut n = 0;
        loop {
            let last = n == booking.len();
            if n <= ASKED || last {
                let got = self.check_end(&states);
                same!("check_end", "number of the words so far", got, number(&booking[..n]), sig, booking, n);
                first.push(got);
            }
            if last {
                break;
            }
            self.check_step(sig, &mut states, booking[n]);
            n += 1;
        }
        let wrong = (states.words()[0] == 13).then_some(states.words()[1] as usize);
        same!("check_step", "where it goes wrong", wrong, whole.as_ref().and_then(|s| s.wrong_at(booking)), sig, booking);
        let last = *first.last().unwrap();
        first.truncate(ASKED + 1);
        (first, last)
    }

    fn stepped_too(&mut self, sig: &[u16], booking: &[u16]) {
        if self.last.0 != sig || self.last.1 != booking {
            self.last = (sig.to_vec(), booking.to_vec());
            self.stepped(sig, booking);
        }
    }
}

/// The number of the first record that the library's run refuses, or 0; and the list with the rule and the plan of each, as it was
/// where one is refused. The list is not malformed.
fn singles(sig: &[u16], tree: &[u16], charges: &[u16]) -> (u16, Vec<u16>) {
    let mut after = charges.to_vec();
    for record in after.chunks_exact_mut(RECORD) {
        let a = raw::run(sig, tree, &record[3..3 + record[2] as usize]);
        if a.number != 0 {
            return (a.number, charges.to_vec());
        }
        (record[0], record[1]) = (a.rule, a.plan);
    }
    (0, after)
}

/// What 01 says of the booking that is shown: lawful, and taken by the pattern and by the held rule.
fn both_take(sig: &[u16], pattern: &[u16], table: &[u16], rule: u16, booking: &[u16]) -> bool {
    let sig = Signature::read(sig).unwrap();
    let Some(v) = sig.read_booking(booking) else {
        return false;
    };
    let rules = sound(&sig, table).unwrap();
    let held = rules.iter().find(|r| r.number == rule).unwrap();
    held.pattern.fits(&v) && pattern::read(&sig, pattern).unwrap().fits(&v)
}

/// What 02 says of the booking that the gap call shows.
fn untaken(sig: &[u16], table: &[u16], booking: &[u16]) -> bool {
    let sig = Signature::read(sig).unwrap();
    is_gap(&sig, &sound(&sig, table).unwrap(), booking)
}
