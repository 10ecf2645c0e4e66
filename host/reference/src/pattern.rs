//! 01, Patterns, and 02, job 1, ranges: reading, "fits" and "fails", linearity, weight, ambiguity.
use crate::rows::{rows_of, some_meet_at, Side};
use crate::signature::{Signature, Value};
use std::collections::BTreeSet;

#[derive(Clone, Debug, PartialEq)]
pub enum Pattern {
    Head(u16, Vec<Pattern>),
    And(Box<Pattern>, Box<Pattern>),
    Or(Box<Pattern>, Box<Pattern>),
    Wildcard,
    Absurd,
    Not(Box<Pattern>),
    Variable(u8),
    /// Low and high, whatever they are.
    Range(u16, u16),
}
use Pattern::*;

pub type Bindings = BTreeSet<(u8, usize)>;
/// Every set of bindings that a relation gives.
pub type Ways = BTreeSet<Bindings>;

pub fn read(sig: &Signature, words: &[u16]) -> Option<Pattern> {
    if words.is_empty() || words.len() > 64 {
        return None;
    }
    let mut at = 0;
    let p = read_part(sig, 0, words, &mut at)?;
    if at == words.len() { Some(p) } else { None }
}

fn read_part(sig: &Signature, kind: usize, words: &[u16], at: &mut usize) -> Option<Pattern> {
    let w = *words.get(*at)?;
    *at += 1;
    match w {
        0..=255 => {
            if !sig.has(w, kind) {
                return None;
            }
            let mut parts = vec![];
            for k in sig.arguments(w) {
                parts.push(read_part(sig, *k, words, at)?);
            }
            Some(Head(w, parts))
        }
        256 | 257 => {
            let a = Box::new(read_part(sig, kind, words, at)?);
            let b = Box::new(read_part(sig, kind, words, at)?);
            Some(if w == 256 { And(a, b) } else { Or(a, b) })
        }
        258 => Some(Wildcard),
        259 => Some(Absurd),
        260 => Some(Not(Box::new(read_part(sig, kind, words, at)?))),
        261..=276 => Some(Variable((w - 261) as u8)),
        280 => {
            let (low, high) = (*words.get(*at)?, *words.get(*at + 1)?);
            *at += 2;
            if sig.is_number(kind) { Some(Range(low, high)) } else { None }
        }
        _ => None,
    }
}

impl Pattern {
    pub fn words(&self) -> Vec<u16> {
        let mut out = vec![];
        self.put(&mut out);
        out
    }

    fn put(&self, out: &mut Vec<u16>) {
        match self {
            Head(c, parts) => {
                out.push(*c);
                parts.iter().for_each(|p| p.put(out));
            }
            And(a, b) | Or(a, b) => {
                out.push(if matches!(self, And(..)) { 256 } else { 257 });
                a.put(out);
                b.put(out);
            }
            Wildcard => out.push(258),
            Absurd => out.push(259),
            Not(p) => {
                out.push(260);
                p.put(out);
            }
            Variable(x) => out.push(261 + *x as u16),
            Range(low, high) => out.extend([280, *low, *high]),
        }
    }

    // ---- the relations, without bindings

    pub fn fits(&self, v: &Value) -> bool {
        match self {
            Variable(_) | Wildcard => true,
            Absurd => false,
            Not(p) => p.fails(v),
            And(a, b) => a.fits(v) && b.fits(v),
            Or(a, b) => a.fits(v) || b.fits(v),
            Head(c, parts) => *c == v.head && parts.iter().zip(&v.arguments).all(|(p, u)| p.fits(u)),
            Range(low, high) => within(*low, *high, v.head),
        }
    }

    pub fn fails(&self, v: &Value) -> bool {
        match self {
            Variable(_) | Wildcard => false,
            Absurd => true,
            Not(p) => p.fits(v),
            And(a, b) => a.fails(v) || b.fails(v),
            Or(a, b) => a.fails(v) && b.fails(v),
            Head(c, parts) => *c != v.head || parts.iter().zip(&v.arguments).any(|(p, u)| p.fails(u)),
            Range(low, high) => !within(*low, *high, v.head),
        }
    }

    // ---- the relations, with all bindings that they give

    pub fn fits_with(&self, v: &Value, place: usize) -> Ways {
        match self {
            Variable(x) => Ways::from([Bindings::from([(*x, place)])]),
            Wildcard => Ways::from([Bindings::new()]),
            Absurd => Ways::new(),
            Not(p) => p.fails_with(v, place),
            Range(..) => if self.fits(v) { Ways::from([Bindings::new()]) } else { Ways::new() },
            And(a, b) => joined(&a.fits_with(v, place), &b.fits_with(v, place)),
            Or(a, b) => a.fits_with(v, place).union(&b.fits_with(v, place)).cloned().collect(),
            Head(c, parts) => {
                if *c != v.head {
                    return Ways::new();
                }
                let mut ways = Ways::from([Bindings::new()]);
                let mut at = place + 1;
                for (p, u) in parts.iter().zip(&v.arguments) {
                    ways = joined(&ways, &p.fits_with(u, at));
                    at += u.size();
                }
                ways
            }
        }
    }

    pub fn fails_with(&self, v: &Value, place: usize) -> Ways {
        match self {
            Variable(_) | Wildcard => Ways::new(),
            Absurd => Ways::from([Bindings::new()]),
            Not(p) => p.fits_with(v, place),
            Range(..) => if self.fails(v) { Ways::from([Bindings::new()]) } else { Ways::new() },
            And(a, b) => a.fails_with(v, place).union(&b.fails_with(v, place)).cloned().collect(),
            Or(a, b) => joined(&a.fails_with(v, place), &b.fails_with(v, place)),
            Head(c, parts) => {
                if *c != v.head {
                    return Ways::from([Bindings::new()]);
                }
                let mut ways = Ways::new();
                let mut at = place + 1;
                for (p, u) in parts.iter().zip(&v.arguments) {
                    ways.extend(p.fails_with(u, at));
                    at += u.size();
                }
                ways
            }
        }
    }

    // ---- variables under an even and an odd number of nots

    pub fn even(&self) -> BTreeSet<u8> {
        match self {
            Variable(x) => BTreeSet::from([*x]),
            Wildcard | Absurd | Range(..) => BTreeSet::new(),
            Not(p) => p.odd(),
            And(a, b) | Or(a, b) => &a.even() | &b.even(),
            Head(_, parts) => parts.iter().flat_map(|p| p.even()).collect(),
        }
    }

    pub fn odd(&self) -> BTreeSet<u8> {
        match self {
            Variable(_) | Wildcard | Absurd | Range(..) => BTreeSet::new(),
            Not(p) => p.even(),
            And(a, b) | Or(a, b) => &a.odd() | &b.odd(),
            Head(_, parts) => parts.iter().flat_map(|p| p.odd()).collect(),
        }
    }

    pub fn linear_plus(&self) -> bool {
        match self {
            Variable(_) | Wildcard | Absurd | Range(..) => true,
            Not(p) => p.linear_minus(),
            And(a, b) => a.linear_plus() && b.linear_plus() && a.even().is_disjoint(&b.even()),
            Or(a, b) => a.linear_plus() && b.linear_plus() && a.even() == b.even(),
            Head(_, parts) => {
                let sum: usize = parts.iter().map(|p| p.even().len()).sum();
                parts.iter().all(|p| p.linear_plus()) && sum == self.even().len()
            }
        }
    }

    pub fn linear_minus(&self) -> bool {
        match self {
            Variable(_) | Wildcard | Absurd | Range(..) => true,
            Not(p) => p.linear_plus(),
            And(a, b) => a.linear_minus() && b.linear_minus() && a.odd() == b.odd(),
            Or(a, b) => a.linear_minus() && b.linear_minus() && a.odd().is_disjoint(&b.odd()),
            Head(_, parts) => parts.iter().all(|p| p.linear_minus() && p.odd().is_empty()),
        }
    }

    // ---- weight

    pub fn weight(&self, side: Side) -> u128 {
        match (self, side) {
            (Variable(_) | Wildcard, Side::Plus) | (Absurd, Side::Minus) | (Range(..), _) => 1,
            (Variable(_) | Wildcard, Side::Minus) | (Absurd, Side::Plus) => 0,
            (Not(p), s) => p.weight(s.other()),
            (And(a, b), Side::Plus) | (Or(a, b), Side::Minus) => a.weight(side) * b.weight(side),
            (And(a, b), Side::Minus) | (Or(a, b), Side::Plus) => a.weight(side) + b.weight(side),
            (Head(_, parts), Side::Plus) => parts.iter().map(|p| p.weight(side)).product(),
            (Head(_, parts), Side::Minus) => 1 + parts.iter().map(|p| p.weight(side)).sum::<u128>(),
        }
    }

    /// Whether some part, at the side on which it stands, weighs over 64.
    pub fn too_heavy(&self, side: Side) -> bool {
        self.weight(side) > 64
            || match self {
                Not(p) => p.too_heavy(side.other()),
                And(a, b) | Or(a, b) => a.too_heavy(side) || b.too_heavy(side),
                Head(_, parts) => parts.iter().any(|p| p.too_heavy(side)),
                _ => false,
            }
    }

    /// Whether some range is wrong, wherever it stands.
    pub fn wrong_range(&self) -> bool {
        match self {
            Range(low, high) => low > high || *high > 100,
            Not(p) => p.wrong_range(),
            And(a, b) | Or(a, b) => a.wrong_range() || b.wrong_range(),
            Head(_, parts) => parts.iter().any(Pattern::wrong_range),
            Variable(_) | Wildcard | Absurd => false,
        }
    }

    pub fn ambiguous(&self, sig: &Signature, kind: usize, side: Side) -> bool {
        match self {
            Variable(_) | Wildcard | Absurd | Range(..) => false,
            Not(p) => p.ambiguous(sig, kind, side.other()),
            Head(c, parts) => parts.iter().zip(sig.arguments(*c)).any(|(p, k)| p.ambiguous(sig, *k, side)),
            And(a, b) | Or(a, b) => {
                let asked = match (self, side) {
                    (Or(..), Side::Plus) => !self.even().is_empty(),
                    (And(..), Side::Minus) => !self.odd().is_empty(),
                    _ => false,
                };
                (asked && some_meet_at(sig, kind, &rows_of(sig, a, kind, side), &rows_of(sig, b, kind, side)))
                    || a.ambiguous(sig, kind, side)
                    || b.ambiguous(sig, kind, side)
            }
        }
    }
}

/// Whether a level's word lies from low to high.
fn within(low: u16, high: u16, word: u16) -> bool {
    (low as u32..=high as u32).contains(&(word as u32 - 1000))
}

fn joined(a: &Ways, b: &Ways) -> Ways {
    a.iter().flat_map(|x| b.iter().map(move |y| x | y)).collect()
}

/// The first of 7, 18 and 8 to 10 that applies, or the pattern.
pub fn admitted(sig: &Signature, words: &[u16]) -> Result<Pattern, u16> {
    let p = read(sig, words).ok_or(7u16)?;
    if p.wrong_range() {
        return Err(18);
    }
    if !p.linear_plus() {
        return Err(8);
    }
    if p.too_heavy(Side::Plus) {
        return Err(9);
    }
    if p.ambiguous(sig, 0, Side::Plus) {
        return Err(10);
    }
    Ok(p)
}
