//! 01, Table and Turned down, and 02, jobs 3 and 4: the calls, each as what it answers and what is written.
use crate::gap::untaken;
use crate::pattern::{admitted, Pattern};
use crate::rows::{rows_of, some_meet_at, Row, Side};
use crate::signature::Signature;
use crate::tree::{run as run_tree, tree_of, unmatched, Found};

pub const TABLE: usize = 4290;
pub const WITNESS: usize = 4096;
/// The default plan that emptying sets.
pub const EMPTIED: u16 = 1;

pub struct Rule {
    pub number: u16,
    pub plan: u16,
    pub words: Vec<u16>,
    pub pattern: Pattern,
    pub rows: Vec<Row>,
}

/// number, rule, plan, places
pub type Answer = (u16, u16, u16, [u16; 16]);

fn refused(n: u16) -> Answer {
    (n, 0, 0, [0; 16])
}

fn given(f: Found) -> Answer {
    (0, f.0, f.1, f.2)
}

impl Rule {
    fn new(sig: &Signature, number: u16, plan: u16, words: &[u16]) -> Result<Rule, u16> {
        let pattern = admitted(sig, words)?;
        let rows = rows_of(sig, &pattern, 0, Side::Plus);
        Ok(Rule { number, plan, words: words.to_vec(), pattern, rows })
    }

    fn weight(&self) -> u128 {
        self.pattern.weight(Side::Plus)
    }

    fn shares(&self, sig: &Signature, other: &Rule) -> bool {
        some_meet_at(sig, 0, &self.rows, &other.rows)
    }
}

/// The rules of a sound table: the count, the default, which may be any word, and the rules.
pub fn sound(sig: &Signature, table: &[u16]) -> Option<Vec<Rule>> {
    let table = &table[..TABLE];
    let count = table[0] as usize;
    let mut rules: Vec<Rule> = vec![];
    let mut at = 2;
    for _ in 0..count {
        if at + 3 > TABLE {
            return None;
        }
        let (number, plan, n) = (table[at], table[at + 1], table[at + 2] as usize);
        let words = table.get(at + 3..at + 3 + n)?;
        if number < 1 || number > 999 || rules.last().is_some_and(|r| r.number >= number) {
            return None;
        }
        rules.push(Rule::new(sig, number, plan, words).ok()?);
        at += 3 + n;
    }
    if table[at..].iter().any(|w| *w != 0) {
        return None;
    }
    if rules.len() > 64 || rules.iter().map(Rule::weight).sum::<u128>() > 256 {
        return None;
    }
    for (i, r) in rules.iter().enumerate() {
        if rules[..i].iter().any(|s| s.shares(sig, r)) {
            return None;
        }
    }
    Some(rules)
}

/// The default and the rules written into a table; words from 4,290 on stay.
fn stored<'a>(default: u16, rules: impl Iterator<Item = &'a Rule>, table: &[u16]) -> Vec<u16> {
    let mut out = vec![0, default];
    for r in rules {
        out[0] += 1;
        out.extend([r.number, r.plan, r.words.len() as u16]);
        out.extend(&r.words);
    }
    out.resize(TABLE, 0);
    out.extend(&table[TABLE..]);
    out
}

/// Soundness is asked of one table again and again: the last answers are kept.
#[derive(Default)]
pub struct Model {
    kept: Vec<(Vec<u16>, Vec<u16>, std::rc::Rc<Option<Vec<Rule>>>)>,
}

type InForce = std::rc::Rc<Option<Vec<Rule>>>;

impl Model {
    fn rules(&mut self, words: &[u16], sig: &Signature, table: &[u16]) -> InForce {
        if let Some((_, _, r)) = self.kept.iter().find(|(s, t, _)| s == words && t[..] == table[..TABLE]) {
            return r.clone();
        }
        let r: InForce = std::rc::Rc::new(sound(sig, table));
        if self.kept.len() == 4 {
            self.kept.remove(0);
        }
        self.kept.push((words.to_vec(), table[..TABLE].to_vec(), r.clone()));
        r
    }

    /// 1 to 3, or the signature and the rules in force.
    fn open(&mut self, words: &[u16], long: bool, table: &[u16]) -> Result<(Signature, InForce), u16> {
        let sig = Signature::read(words).ok_or(1u16)?;
        if !long {
            return Err(2);
        }
        let rules = self.rules(words, &sig, table);
        if rules.is_none() {
            return Err(3);
        }
        Ok((sig, rules))
    }

    pub fn empty(&mut self, table: &[u16]) -> (u16, Vec<u16>) {
        if table.len() < TABLE {
            return (2, table.to_vec());
        }
        (0, stored(EMPTIED, [].iter(), table))
    }

    /// The number, the lowest rule that shares a booking (on 12), and the table. Which booking is shown is open.
    pub fn enter(&mut self, words: &[u16], number: u16, plan: u16, pattern: &[u16], table: &[u16], witness: usize) -> (u16, u16, Vec<u16>) {
        let same = |n: u16| (n, 0, table.to_vec());
        let (sig, rules) = match self.open(words, table.len() >= TABLE && witness >= WITNESS, table) {
            Ok(x) => x,
            Err(n) => return same(n),
        };
        let rules = (*rules).as_ref().unwrap();
        if number < 1 || number > 999 {
            return same(4);
        }
        if rules.iter().any(|r| r.number == number) {
            return same(5);
        }
        let rule = match Rule::new(&sig, number, plan, pattern) {
            Ok(r) => r,
            Err(n) => return same(n),
        };
        if rules.len() == 64 || rules.iter().map(Rule::weight).sum::<u128>() + rule.weight() > 256 {
            return same(11);
        }
        if let Some(r) = rules.iter().find(|r| r.shares(&sig, &rule)) {
            return (12, r.number, table.to_vec());
        }
        // in their order by number
        let below = rules.iter().filter(|r| r.number < number);
        let above = rules.iter().filter(|r| r.number > number);
        (0, 0, stored(table[1], below.chain([&rule]).chain(above), table))
    }

    pub fn withdraw(&mut self, words: &[u16], number: u16, table: &[u16]) -> (u16, Vec<u16>) {
        let same = |n: u16| (n, table.to_vec());
        let rules = match self.open(words, table.len() >= TABLE, table) {
            Ok((_, r)) => r,
            Err(n) => return same(n),
        };
        let rules = (*rules).as_ref().unwrap();
        if number < 1 || number > 999 {
            return same(4);
        }
        if !rules.iter().any(|r| r.number == number) {
            return same(6);
        }
        (0, stored(table[1], rules.iter().filter(|r| r.number != number), table))
    }

    pub fn set_default(&mut self, words: &[u16], plan: u16, table: &[u16]) -> (u16, Vec<u16>) {
        let mut after = table.to_vec();
        match self.open(words, table.len() >= TABLE, table) {
            Ok(_) => after[1] = plan,
            Err(n) => return (n, after),
        }
        (0, after)
    }

    pub fn compile(&mut self, words: &[u16], table: &[u16], space: &[u16]) -> (u16, usize, Vec<u16>) {
        let (sig, rules) = match self.open(words, table.len() >= TABLE, table) {
            Ok(x) => x,
            Err(n) => return (n, 0, space.to_vec()),
        };
        let mut rows = vec![];
        for r in (*rules).as_ref().unwrap() {
            rows.extend(r.rows.iter().map(|row| (row.clone(), r.number, r.plan)));
        }
        match tree_of(&sig, &rows, table[1], space.len().min(32768)) {
            None => (14, 0, space.to_vec()),
            Some(tree) => {
                let mut out = tree.words();
                let n = out.len();
                out.extend(&space[n..]);
                (0, n, out)
            }
        }
    }

    pub fn decide(&mut self, words: &[u16], table: &[u16], booking: &[u16]) -> Answer {
        let (sig, rules) = match self.open(words, table.len() >= TABLE, table) {
            Ok(x) => x,
            Err(n) => return refused(n),
        };
        let Some(v) = sig.read_booking(booking) else {
            return refused(13);
        };
        let mut answer = unmatched(table[1]);
        let mut taken = 0;
        for r in (*rules).as_ref().unwrap() {
            let ways = r.pattern.fits_with(&v, 0);
            assert_eq!(ways.is_empty(), !r.pattern.fits(&v));
            assert_eq!(ways.is_empty(), r.pattern.fails(&v));
            assert!(ways.len() <= 1, "an admitted pattern binds in one way");
            if let Some(binds) = ways.first() {
                taken += 1;
                let mut places = [65535u16; 16];
                for (x, place) in binds {
                    assert_eq!(places[*x as usize], 65535, "a variable is bound once");
                    places[*x as usize] = *place as u16;
                }
                answer = (r.number, r.plan, places);
            }
        }
        assert!(taken <= 1, "no two rules of a sound table take one booking");
        given(answer)
    }

    /// The number, and a booking that no rule takes. Which one is shown is open.
    pub fn gap(&mut self, words: &[u16], table: &[u16], witness: usize) -> (u16, Option<Vec<u16>>) {
        match self.open(words, table.len() >= TABLE && witness >= WITNESS, table) {
            Ok((sig, rules)) => (0, untaken(&sig, (*rules).as_ref().unwrap()).map(|v| v.words())),
            Err(n) => (n, None),
        }
    }

    pub fn run(&mut self, words: &[u16], tree: &[u16], booking: &[u16]) -> Answer {
        let Some(sig) = Signature::read(words) else {
            return refused(1);
        };
        let Some(v) = sig.read_booking(booking) else {
            return refused(13);
        };
        match run_tree(&sig, tree, &v) {
            None => refused(15),
            Some(f) => given(f),
        }
    }

    /// The number and the words of the part.
    pub fn part(&mut self, words: &[u16], booking: &[u16], place: usize) -> (u16, Vec<u16>) {
        let Some(sig) = Signature::read(words) else {
            return (1, vec![]);
        };
        let Some(v) = sig.read_booking(booking) else {
            return (13, vec![]);
        };
        match v.part(place) {
            None => (16, vec![]),
            Some(u) => (0, u.words()),
        }
    }
}
