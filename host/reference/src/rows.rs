//! 01, Rows, with levels as heads (02, job 1): nots pushed inward, products multiplied out.
use crate::pattern::Pattern;
use crate::signature::{Signature, Value, LEVELS};
use std::collections::BTreeSet;

#[derive(Clone, Copy, PartialEq)]
pub enum Side {
    Plus,
    Minus,
}

impl Side {
    pub fn other(self) -> Side {
        if self == Side::Plus { Side::Minus } else { Side::Plus }
    }
}

/// A pattern without not, but with "any other head than this" and "the levels in this range", or "not in it".
enum Pushed {
    Head(u16, Vec<Pushed>),
    OtherHead(u16),
    Levels(u16, u16, Side),
    And(Box<Pushed>, Box<Pushed>),
    Or(Box<Pushed>, Box<Pushed>),
    Wildcard,
    Absurd,
    Variable(u8),
}

fn push(p: &Pattern, side: Side) -> Pushed {
    let both = |a: &Pattern, b: &Pattern| (Box::new(push(a, side)), Box::new(push(b, side)));
    match (p, side) {
        (Pattern::Not(p), s) => push(p, s.other()),
        (Pattern::Wildcard, Side::Plus) | (Pattern::Absurd, Side::Minus) => Pushed::Wildcard,
        (Pattern::Variable(x), Side::Plus) => Pushed::Variable(*x),
        (Pattern::Absurd, Side::Plus) | (Pattern::Wildcard | Pattern::Variable(_), Side::Minus) => Pushed::Absurd,
        (Pattern::And(a, b), Side::Plus) | (Pattern::Or(a, b), Side::Minus) => {
            let (a, b) = both(a, b);
            Pushed::And(a, b)
        }
        (Pattern::Or(a, b), Side::Plus) | (Pattern::And(a, b), Side::Minus) => {
            let (a, b) = both(a, b);
            Pushed::Or(a, b)
        }
        (Pattern::Range(low, high), side) => Pushed::Levels(*low, *high, side),
        (Pattern::Head(c, parts), Side::Plus) => Pushed::Head(*c, parts.iter().map(|q| push(q, side)).collect()),
        (Pattern::Head(c, parts), Side::Minus) => {
            let mut sum = Pushed::OtherHead(*c);
            for i in 0..parts.len() {
                let arguments = (0..parts.len()).map(|j| if i == j { push(&parts[j], side) } else { Pushed::Wildcard });
                sum = Pushed::Or(Box::new(sum), Box::new(Pushed::Head(*c, arguments.collect())));
            }
            sum
        }
    }
}

/// A place of a row with all places below it.
#[derive(Clone, Debug)]
pub struct Row {
    pub variables: BTreeSet<u8>,
    pub test: Test,
}

#[derive(Clone, Debug)]
pub enum Test {
    Named(u16, Vec<Row>),
    Excluded(BTreeSet<u16>),
}

impl Row {
    fn open() -> Row {
        Row { variables: BTreeSet::new(), test: Test::Excluded(BTreeSet::new()) }
    }

    pub fn refined(&self) -> bool {
        match &self.test {
            Test::Named(..) => true,
            Test::Excluded(out) => !out.is_empty(),
        }
    }
}

fn covers(sig: &Signature, kind: usize, out: &BTreeSet<u16>) -> bool {
    sig.heads(kind).all(|c| out.contains(&c))
}

/// Two rows as one, or none where no constructor is left at some place.
pub fn join(sig: &Signature, kind: usize, a: &Row, b: &Row) -> Option<Row> {
    let test = match (&a.test, &b.test) {
        (Test::Named(c, xs), Test::Named(d, ys)) => {
            if c != d {
                return None;
            }
            let mut parts = vec![];
            for (i, k) in sig.arguments(*c).iter().enumerate() {
                parts.push(join(sig, *k, &xs[i], &ys[i])?);
            }
            Test::Named(*c, parts)
        }
        (Test::Named(c, xs), Test::Excluded(out)) | (Test::Excluded(out), Test::Named(c, xs)) => {
            if out.contains(c) {
                return None;
            }
            Test::Named(*c, xs.clone())
        }
        (Test::Excluded(s), Test::Excluded(t)) => {
            let out = s | t;
            if covers(sig, kind, &out) {
                return None;
            }
            Test::Excluded(out)
        }
    };
    Some(Row { variables: &a.variables | &b.variables, test })
}

/// Whether two rows have a value in common.
pub fn meet(sig: &Signature, kind: usize, a: &Row, b: &Row) -> bool {
    match (&a.test, &b.test) {
        (Test::Named(c, xs), Test::Named(d, ys)) => {
            c == d && sig.arguments(*c).iter().enumerate().all(|(i, k)| meet(sig, *k, &xs[i], &ys[i]))
        }
        (Test::Named(c, _), Test::Excluded(out)) | (Test::Excluded(out), Test::Named(c, _)) => !out.contains(c),
        (Test::Excluded(s), Test::Excluded(t)) => sig.heads(kind).any(|c| !s.contains(&c) && !t.contains(&c)),
    }
}

/// The row that excludes these heads, if one is left.
fn excluding(sig: &Signature, kind: usize, out: BTreeSet<u16>) -> Vec<Row> {
    if covers(sig, kind, &out) {
        return vec![];
    }
    vec![Row { test: Test::Excluded(out), ..Row::open() }]
}

fn multiply(sig: &Signature, p: &Pushed, kind: usize) -> Vec<Row> {
    match p {
        Pushed::Wildcard => vec![Row::open()],
        Pushed::Absurd => vec![],
        Pushed::Variable(x) => vec![Row { variables: BTreeSet::from([*x]), ..Row::open() }],
        Pushed::OtherHead(c) => excluding(sig, kind, BTreeSet::from([*c])),
        Pushed::Levels(low, high, side) => {
            let inside = |level: u16| *low <= level && level <= *high;
            excluding(sig, kind, LEVELS.filter(|w| inside(w - 1000) == (*side == Side::Minus)).collect())
        }
        Pushed::Or(a, b) => {
            let mut rows = multiply(sig, a, kind);
            rows.extend(multiply(sig, b, kind));
            rows
        }
        Pushed::And(a, b) => {
            let (xs, ys) = (multiply(sig, a, kind), multiply(sig, b, kind));
            xs.iter().flat_map(|x| ys.iter().filter_map(move |y| join(sig, kind, x, y))).collect()
        }
        Pushed::Head(c, parts) => {
            let lists: Vec<Vec<Row>> =
                parts.iter().zip(sig.arguments(*c)).map(|(q, k)| multiply(sig, q, *k)).collect();
            if lists.iter().any(|l| l.is_empty()) {
                return vec![];
            }
            let mut done: Vec<Vec<Row>> = vec![vec![]];
            for list in &lists {
                done = done
                    .iter()
                    .flat_map(|d| {
                        list.iter().map(move |r| {
                            let mut longer = d.clone();
                            longer.push(r.clone());
                            longer
                        })
                    })
                    .collect();
            }
            done.into_iter().map(|d| Row { test: Test::Named(*c, d), ..Row::open() }).collect()
        }
    }
}

pub fn rows_of(sig: &Signature, p: &Pattern, kind: usize, side: Side) -> Vec<Row> {
    multiply(sig, &push(p, side), kind)
}

pub fn some_meet_at(sig: &Signature, kind: usize, xs: &[Row], ys: &[Row]) -> bool {
    xs.iter().any(|x| ys.iter().any(|y| meet(sig, kind, x, y)))
}

/// A value that the row takes.
pub fn some_value(sig: &Signature, kind: usize, row: &Row) -> Value {
    match &row.test {
        Test::Named(c, parts) => Value {
            head: *c,
            arguments: parts.iter().zip(sig.arguments(*c)).map(|(r, k)| some_value(sig, *k, r)).collect(),
        },
        Test::Excluded(out) => {
            if out.contains(&sig.least[kind].0) {
                sig.least_under(sig.heads(kind).find(|c| !out.contains(c)).unwrap())
            } else {
                sig.least_value(kind)
            }
        }
    }
}

/// A value that two lists of rows have in common.
pub fn shared_value(sig: &Signature, kind: usize, xs: &[Row], ys: &[Row]) -> Option<Value> {
    for x in xs {
        for y in ys {
            if let Some(r) = join(sig, kind, x, y) {
                return Some(some_value(sig, kind, &r));
            }
        }
    }
    None
}
