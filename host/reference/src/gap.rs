//! 02, job 4: a booking that no rule takes, found place by place; and by asking all small ones.
use crate::calls::Rule;
use crate::rows::{Row, Test};
use crate::signature::{all_values, Signature, Value};
use std::collections::{BTreeMap, BTreeSet};

/// The path of argument numbers from the root.
type Place = Vec<usize>;
type Heads = BTreeMap<Place, u16>;

/// What a row still asks: its refined parts, each with its kind.
#[derive(Clone)]
struct Line<'a>(BTreeMap<Place, (usize, &'a Row)>);

impl<'a> Line<'a> {
    fn ask(&mut self, place: Place, kind: usize, part: &'a Row) {
        if part.refined() {
            self.0.insert(place, (kind, part));
        }
    }

    fn allows(&self, place: &Place, head: u16) -> bool {
        match self.0.get(place).map(|(_, part)| &part.test) {
            None => true,
            Some(Test::Named(c, _)) => *c == head,
            Some(Test::Excluded(out)) => !out.contains(&head),
        }
    }

    fn names(&self, place: &Place, head: u16) -> bool {
        matches!(self.0.get(place), Some((_, Row { test: Test::Named(c, _), .. })) if *c == head)
    }

    /// What is left to ask where a head stands that the row allows.
    fn under(&self, sig: &Signature, place: &Place, head: u16) -> Line<'a> {
        let mut left = self.clone();
        if let Some((_, Row { test: Test::Named(_, parts), .. })) = left.0.remove(place) {
            for (i, (part, kind)) in parts.iter().zip(sig.arguments(head)).enumerate() {
                left.ask([&place[..], &[i]].concat(), *kind, part);
            }
        }
        left
    }
}

/// The place that most lines ask, with its kind.
fn most_asked(lines: &[Line]) -> Option<(Place, usize)> {
    let mut asked: BTreeMap<&Place, (usize, usize)> = BTreeMap::new();
    for (place, (kind, _)) in lines.iter().flat_map(|l| &l.0) {
        asked.entry(place).or_insert((0, *kind)).0 += 1;
    }
    // the first of those that are asked alike
    let (place, (_, kind)) = asked.into_iter().rev().max_by_key(|(_, (n, _))| *n)?;
    Some((place.clone(), kind))
}

/// The heads to try at a place: each that a line names, and of the others, where the same lines stay, the one with the shortest value.
fn to_try(sig: &Signature, lines: &[Line], place: &Place, kind: usize) -> Vec<u16> {
    let mut heads: Vec<u16> = sig.heads(kind).collect();
    heads.sort_by_key(|c| sig.least_under(*c).size());
    let mut seen = BTreeSet::new();
    let stay = |c: u16| lines.iter().map(|l| l.allows(place, c)).collect::<Vec<bool>>();
    heads.retain(|c| lines.iter().any(|l| l.names(place, *c)) || seen.insert(stay(*c)));
    heads
}

/// Heads at places such that no line takes what has them, whatever stands elsewhere.
fn search(sig: &Signature, lines: &[Line], heads: &mut Heads) -> bool {
    if lines.iter().any(|l| l.0.is_empty()) {
        return false;
    }
    let Some((place, kind)) = most_asked(lines) else {
        return true;
    };
    for head in to_try(sig, lines, &place, kind) {
        let stay = lines.iter().filter(|l| l.allows(&place, head));
        let left: Vec<Line> = stay.map(|l| l.under(sig, &place, head)).collect();
        heads.insert(place.clone(), head);
        if search(sig, &left, heads) {
            return true;
        }
    }
    heads.remove(&place);
    false
}

/// The value with these heads, and least values elsewhere.
fn value(sig: &Signature, kind: usize, place: Place, heads: &Heads) -> Value {
    let Some(head) = heads.get(&place) else {
        return sig.least_value(kind);
    };
    let part = |(i, k): (usize, &usize)| value(sig, *k, [&place[..], &[i]].concat(), heads);
    Value { head: *head, arguments: sig.arguments(*head).iter().enumerate().map(part).collect() }
}

/// A lawful booking that none of the rules takes. That the one found is lawful is tested, not argued.
pub fn untaken(sig: &Signature, rules: &[Rule]) -> Option<Value> {
    let line = |row| {
        let mut l = Line(BTreeMap::new());
        l.ask(vec![], 0, row);
        l
    };
    let lines: Vec<Line> = rules.iter().flat_map(|r| &r.rows).map(line).collect();
    let mut heads = Heads::new();
    if !search(sig, &lines, &mut heads) {
        return None;
    }
    let v = value(sig, 0, vec![], &heads);
    assert!(is_gap(sig, rules, &v.words()), "found, and no gap: {v:?}");
    Some(v)
}

/// Whether words are a lawful booking that none of the rules takes, by the relation.
pub fn is_gap(sig: &Signature, rules: &[Rule], words: &[u16]) -> bool {
    sig.read_booking(words).is_some_and(|v| rules.iter().all(|r| !r.pattern.fits(&v) && r.pattern.fails(&v)))
}

/// Brute force: the first booking that none of the rules takes, of all with at most so many words, or of the first `count` of them.
pub fn small_untaken(sig: &Signature, rules: &[Rule], most: usize, count: usize) -> Option<Value> {
    all_values(sig, 0, most, count).into_iter().find(|v| rules.iter().all(|r| !r.pattern.fits(v)))
}

/// How many values a kind has; none where it has over `most`, or endlessly many.
pub fn counted(sig: &Signature, kind: usize, most: usize, deep: usize) -> Option<usize> {
    if deep == 0 {
        return None;
    }
    let mut sum = 0;
    for head in sig.heads(kind) {
        let mut product = 1;
        for k in sig.arguments(head) {
            product *= counted(sig, *k, most, deep - 1)?;
        }
        sum += product;
        if sum > most {
            return None;
        }
    }
    Some(sum)
}
