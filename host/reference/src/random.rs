//! Seeded inputs: signatures, patterns, bookings, and damage to words.
use crate::pattern::Pattern;
use crate::rows::{Row, Side, Test};
use crate::signature::{Signature, Value};
use crate::stepped::STATE;

pub struct Random(u64);

impl Random {
    pub fn new(seed: u64) -> Random {
        Random(seed)
    }

    pub fn next(&mut self) -> u64 {
        self.0 = self.0.wrapping_add(0x9E3779B97F4A7C15);
        let mut z = self.0;
        z = (z ^ (z >> 30)).wrapping_mul(0xBF58476D1CE4E5B9);
        z = (z ^ (z >> 27)).wrapping_mul(0x94D049BB133111EB);
        z ^ (z >> 31)
    }

    pub fn below(&mut self, n: usize) -> usize {
        (self.next() % n as u64) as usize
    }

    pub fn between(&mut self, a: usize, b: usize) -> usize {
        a + self.below(b - a + 1)
    }

    /// True once in n times.
    pub fn once_in(&mut self, n: usize) -> bool {
        self.below(n) == 0
    }

    pub fn pick<'a, T>(&mut self, of: &'a [T]) -> &'a T {
        &of[self.below(of.len())]
    }
}

#[derive(Clone, Copy, PartialEq)]
pub enum Size {
    Small,
    Medium,
    Large,
}

/// The words of a lawful signature.
pub fn signature(r: &mut Random, size: Size) -> (Vec<u16>, Signature) {
    loop {
        let words = shape(r, size);
        if let Some(sig) = Signature::read(&words) {
            return (words, sig);
        }
    }
}

fn shape(r: &mut Random, size: Size) -> Vec<u16> {
    let (kinds, heads, arguments) = match size {
        Size::Small => (r.between(1, 3), 3, 2),
        Size::Medium => (r.between(1, 5), 5, 4),
        Size::Large => (if r.once_in(6) { 32 } else { r.between(2, 20) }, 12, 4),
    };
    let wide = if size != Size::Small && r.once_in(4) { r.below(kinds) } else { usize::MAX };
    let mut constructors = vec![];
    for k in 0..kinds {
        // a number kind, also kind 0 now and then
        if r.once_in(if k == 0 { 40 } else { 4 }) {
            constructors.push((k as u16, None));
            continue;
        }
        let n = if k == wide { *r.pick(&[17, 63, 64]) } else { r.between(1, heads) };
        let plain = if r.once_in(5) { usize::MAX } else { r.below(n) };
        for i in 0..n {
            let m = if i == plain || (k == wide && !r.once_in(10)) { 0 } else { r.between(0, arguments) };
            let up = r.once_in(2);
            let args: Vec<u16> =
                (0..m).map(|_| if up && k + 1 < kinds { r.between(k + 1, kinds - 1) } else { r.below(kinds) } as u16).collect();
            constructors.push((k as u16, Some(args)));
        }
    }
    let mut words = vec![constructors.len() as u16];
    for (k, args) in constructors {
        words.push(k);
        words.push(args.as_ref().map_or(5, |a| a.len() as u16));
        words.extend(args.unwrap_or_default());
    }
    words
}

/// A few words changed, taken out, put in, exchanged or cut off.
pub fn damage(r: &mut Random, words: &mut Vec<u16>) {
    for _ in 0..r.between(1, 3) {
        let n = words.len();
        let new = odd_word(r);
        match r.below(8) {
            0 if n > 0 => {
                words.remove(r.below(n));
            }
            1 => words.insert(r.below(n + 1), new),
            2 if n > 1 => {
                let (i, j) = (r.below(n), r.below(n));
                words.swap(i, j);
            }
            3 if n > 0 => words.truncate(r.below(n)),
            4 => words.push(new),
            5 | 6 if n > 0 => {
                let i = r.below(n);
                words[i] = if r.once_in(2) { words[i].wrapping_add(1) } else { words[i].wrapping_sub(1) };
            }
            _ if n > 0 => {
                let i = r.below(n);
                words[i] = new;
            }
            _ => {}
        }
    }
}

/// Words at the edges of what 01 allows, and any.
pub fn odd_word(r: &mut Random) -> u16 {
    match r.below(4) {
        0 => r.below(8) as u16,
        1 => *r.pick(&[31, 32, 63, 64, 65, 255, 256, 257, 258, 259, 260, 261, 276, 277, 279, 280, 281, 999, 1000, 1037, 1100, 1101, 4096, 65535]),
        2 => {
            let most = if r.once_in(3) { 102 } else { 300 };
            r.below(most) as u16
        }
        _ => r.next() as u16,
    }
}

/// A value of a kind; when the words are spent, or it is deep, it ends with least values.
pub fn value(r: &mut Random, sig: &Signature, kind: usize, left: &mut isize, depth: usize) -> Value {
    *left -= 1;
    if *left <= 0 || depth == 0 {
        *left -= sig.least[kind].1 as isize - 1;
        return sig.least_value(kind);
    }
    let heads: Vec<u16> = sig.heads(kind).collect();
    let head = *r.pick(&heads);
    Value { head, arguments: sig.arguments(head).iter().map(|k| value(r, sig, *k, left, depth - 1)).collect() }
}

pub fn booking(r: &mut Random, sig: &Signature) -> Vec<u16> {
    let long = if r.once_in(20) { 4000 } else { 20 };
    let mut left = *r.pick(&[1isize, 6, 12, 30, 100, long]);
    value(r, sig, 0, &mut left, 60).words()
}

/// A value that a row takes.
pub fn value_in(r: &mut Random, sig: &Signature, kind: usize, row: &Row) -> Value {
    match &row.test {
        Test::Named(c, parts) => {
            Value { head: *c, arguments: parts.iter().zip(sig.arguments(*c)).map(|(p, k)| value_in(r, sig, *k, p)).collect() }
        }
        Test::Excluded(out) => {
            let heads: Vec<u16> = sig.heads(kind).filter(|c| !out.contains(c)).collect();
            let head = *r.pick(&heads);
            let mut left = r.between(0, 8) as isize;
            Value { head, arguments: sig.arguments(head).iter().map(|k| value(r, sig, *k, &mut left, 20)).collect() }
        }
    }
}

/// A pattern of a kind that stands at a side, mostly linear: its variables at that side are those given.
pub fn pattern(r: &mut Random, sig: &Signature, kind: usize, side: Side, words: usize, variables: &[u8]) -> Pattern {
    use Pattern::*;
    let both = |a: Pattern, b: Pattern, and: bool| if and { And(Box::new(a), Box::new(b)) } else { Or(Box::new(a), Box::new(b)) };
    let plus = side == Side::Plus;
    if words <= 2 || r.once_in(7) {
        return leaf(r, sig, kind, side, variables);
    }
    match r.below(10) {
        0 => Not(Box::new(pattern(r, sig, kind, side.other(), words - 1, variables))),
        // variables split between the parts
        1 | 2 => {
            let (xs, ys): (Vec<u8>, Vec<u8>) = variables.iter().partition(|_| r.once_in(2));
            let n = r.between(1, words - 2);
            both(pattern(r, sig, kind, side, n, &xs), pattern(r, sig, kind, side, words - 1 - n, &ys), plus)
        }
        // the same variables in both parts; apart under different heads, more often than not
        3 | 4 => {
            let n = r.between(1, words - 2);
            let mut a = pattern(r, sig, kind, side, n, variables);
            let mut b = pattern(r, sig, kind, side, words - 1 - n, variables);
            let heads: Vec<u16> = sig.heads(kind).collect();
            if sig.is_number(kind) && !variables.is_empty() && !r.once_in(4) {
                let cut = r.between(0, 99) as u16;
                (a, b) = (bound(Range(0, cut), side, variables), bound(Range(cut + 1, 100), side, variables));
            } else if heads.len() > 1 && !variables.is_empty() && !r.once_in(4) {
                let i = r.below(heads.len());
                let j = (i + 1 + r.below(heads.len() - 1)) % heads.len();
                a = under(r, sig, heads[i], side, n, variables);
                b = under(r, sig, heads[j], side, words - 1 - n, variables);
            }
            both(a, b, !plus)
        }
        _ if !plus && !variables.is_empty() => Not(Box::new(pattern(r, sig, kind, Side::Plus, words - 1, variables))),
        _ if sig.is_number(kind) => bound(range(r), side, variables),
        _ => {
            let heads: Vec<u16> = sig.heads(kind).collect();
            let head = *r.pick(&heads);
            constructor(r, sig, head, side, words, variables)
        }
    }
}

/// A range, wrong now and then, narrow and wide ones, and those that meet others at an end.
fn range(r: &mut Random) -> Pattern {
    let edges = [0u16, 0, 9, 10, 50, 63, 64, 65, 99, 100, 100];
    let (a, b) = (*r.pick(&edges), if r.once_in(3) { r.below(101) as u16 } else { *r.pick(&edges) });
    match r.below(60) {
        0 => Pattern::Range(b.max(1), b.max(1) - 1),
        1 => Pattern::Range(a.min(b), *r.pick(&[101, 258, 65535])),
        _ => Pattern::Range(a.min(b), a.max(b)),
    }
}

/// That pattern, which binds nothing, with the variables beside it.
fn bound(p: Pattern, side: Side, variables: &[u8]) -> Pattern {
    let p = variables.iter().fold(p, |p, x| Pattern::And(Box::new(Pattern::Variable(*x)), Box::new(p)));
    if side == Side::Plus || variables.is_empty() { p } else { Pattern::Not(Box::new(p)) }
}

/// That head with the variables bound somewhere.
fn under(r: &mut Random, sig: &Signature, head: u16, side: Side, words: usize, variables: &[u8]) -> Pattern {
    if side == Side::Minus {
        let p = under(r, sig, head, Side::Plus, words, variables);
        return Pattern::Not(Box::new(p));
    }
    let mut p = constructor(r, sig, head, side, words, &[]);
    for x in variables {
        p = Pattern::And(Box::new(Pattern::Variable(*x)), Box::new(p));
    }
    p
}

fn constructor(r: &mut Random, sig: &Signature, head: u16, side: Side, words: usize, variables: &[u8]) -> Pattern {
    let kinds = sig.arguments(head);
    if kinds.is_empty() {
        let p = Pattern::Head(head, vec![]);
        return variables.iter().fold(p, |p, x| Pattern::And(Box::new(Pattern::Variable(*x)), Box::new(p)));
    }
    let each = (words - 1) / kinds.len();
    let mut of: Vec<Vec<u8>> = vec![vec![]; kinds.len()];
    for x in variables {
        let i = r.below(kinds.len());
        of[i].push(*x);
    }
    Pattern::Head(head, kinds.iter().zip(&of).map(|(k, xs)| pattern(r, sig, *k, side, each, xs)).collect())
}

fn leaf(r: &mut Random, sig: &Signature, kind: usize, side: Side, variables: &[u8]) -> Pattern {
    use Pattern::*;
    let plus = side == Side::Plus;
    if variables.is_empty() && sig.is_number(kind) && !r.once_in(3) {
        let p = range(r);
        return if r.once_in(3) { Not(Box::new(p)) } else { p };
    }
    if variables.is_empty() {
        let heads: Vec<u16> = sig.heads(kind).filter(|c| *c < 256 && sig.arguments(*c).is_empty()).collect();
        return match r.below(12) {
            0..=3 if !heads.is_empty() => Head(*r.pick(&heads), vec![]),
            4 if !heads.is_empty() => Not(Box::new(Head(*r.pick(&heads), vec![]))),
            5 => Absurd,
            // variables at the other side are free
            6 if plus => Not(Box::new(Variable(r.below(16) as u8))),
            6 => Variable(r.below(16) as u8),
            _ if plus => Wildcard,
            _ => {
                if r.once_in(2) { Wildcard } else { Absurd }
            }
        };
    }
    let mut p = Variable(variables[0]);
    for x in &variables[1..] {
        p = And(Box::new(p), Box::new(Variable(*x)));
    }
    if plus { p } else { Not(Box::new(p)) }
}

/// Patterns of at most 64 words that part all bookings, about so many: an open place of one is split again and again, by its heads, by one
/// head and the others, or by two ranges.
pub fn pieces(r: &mut Random, sig: &Signature, n: usize) -> Vec<Pattern> {
    let mut all = vec![Pattern::Wildcard];
    for _ in 0..2 * n {
        let i = r.below(all.len());
        let places = open_places(sig, &all[i], 0);
        if places.is_empty() || all.len() >= n {
            continue;
        }
        let (place, kind) = r.pick(&places).clone();
        let parts: Vec<Pattern> = split(r, sig, kind).iter().map(|p| put(&all[i], &place, p)).collect();
        if parts.iter().all(|p| p.words().len() <= 64) && all.len() + parts.len() <= 64 {
            all.splice(i..=i, parts);
        }
    }
    // two as one rule
    if all.len() > 1 && r.once_in(3) {
        let (a, b) = (all.pop().unwrap(), all.remove(r.below(all.len())));
        match a.words().len() + b.words().len() < 64 {
            true => all.push(Pattern::Or(Box::new(a), Box::new(b))),
            false => all.extend([a, b]),
        }
    }
    all
}

/// The wildcards of a pattern by their paths, with their kinds.
fn open_places(sig: &Signature, p: &Pattern, kind: usize) -> Vec<(Vec<usize>, usize)> {
    match p {
        Pattern::Wildcard => vec![(vec![], kind)],
        Pattern::Head(c, parts) => {
            let under = |(i, q): (usize, &Pattern)| {
                let below = open_places(sig, q, sig.arguments(*c)[i]);
                below.into_iter().map(move |(place, k)| ([vec![i], place].concat(), k))
            };
            parts.iter().enumerate().flat_map(under).collect()
        }
        _ => vec![],
    }
}

/// A pattern with another at a place.
fn put(p: &Pattern, place: &[usize], q: &Pattern) -> Pattern {
    let (Some(i), Pattern::Head(c, parts)) = (place.first(), p) else {
        return q.clone();
    };
    let mut parts = parts.clone();
    parts[*i] = put(&parts[*i], &place[1..], q);
    Pattern::Head(*c, parts)
}

/// Patterns that part a kind; each takes some value.
fn split(r: &mut Random, sig: &Signature, kind: usize) -> Vec<Pattern> {
    use Pattern::*;
    if sig.is_number(kind) {
        let cut = r.between(1, 99) as u16;
        return match r.below(3) {
            0 => vec![Range(0, cut), Range(cut + 1, 100)],
            1 => vec![Not(Box::new(Range(cut, 100))), Range(cut, 100)],
            _ => vec![Range(cut / 2, cut), Not(Box::new(Range(cut / 2, cut)))],
        };
    }
    let heads: Vec<Pattern> = sig.heads(kind).map(|c| Head(c, vec![Wildcard; sig.arguments(c).len()])).collect();
    if heads.len() == 1 || (heads.len() <= 6 && !r.once_in(4)) {
        return heads;
    }
    let one = r.pick(&heads).clone();
    vec![one.clone(), Not(Box::new(one))]
}

/// The words of a pattern for a rule, at most 64 more often than not.
pub fn rule_pattern(r: &mut Random, sig: &Signature) -> Vec<u16> {
    let mut all: Vec<u8> = (0..16).collect();
    for i in 0..16 {
        let j = r.below(16);
        all.swap(i, j);
    }
    let n = *r.pick(&[0, 0, 1, 1, 2, 3, 5]);
    let words = *r.pick(&[3, 6, 10, 16, 30, 45]);
    pattern(r, sig, 0, Side::Plus, words, &all[..n]).words()
}

/// A pattern that weighs about 64: an "and" of "or"s, or their negation, around parts of a pattern.
pub fn heavy_pattern(r: &mut Random, sig: &Signature) -> Vec<u16> {
    let mut out = vec![];
    let minus = r.once_in(3);
    let (and, or, open) = if minus { (257, 256, 259) } else { (256, 257, 258) };
    if minus {
        out.push(260);
    }
    let factors = r.between(2, 6);
    for i in 0..factors {
        if i + 1 < factors {
            out.push(and);
        }
        let n = r.between(1, 40 / factors);
        for _ in 1..n {
            out.extend([or, open]);
        }
        if r.once_in(4) {
            let side = if minus { Side::Minus } else { Side::Plus };
            out.extend(pattern(r, sig, 0, side, 4, &[]).words());
        } else {
            out.push(open);
        }
    }
    out
}

/// The words of a state of a stepped check that none made, many of them near to what one makes under a signature of n words.
pub fn state(r: &mut Random, n: usize) -> Vec<u16> {
    let mut words = vec![0; STATE];
    words[0] = if r.once_in(20) { *r.pick(&[1, 2, 13, 65535]) } else { 0 };
    words[1] = match r.below(4) {
        0 => *r.pick(&[0, 1, 4094, 4095, 4096, 65535]),
        _ => r.below(4096) as u16,
    };
    words[2] = match r.below(3) {
        0 => *r.pick(&[0, 1, 2, 3, 509, 510, 511, 512, 513, 65535]),
        1 => r.below(512) as u16,
        _ => 2 * r.below(256) as u16,
    };
    for kind in 0..32 {
        let (first, count) = match r.below(4) {
            0 => (1000, 101),
            1 => (odd_word(r), odd_word(r)),
            _ => (r.below(100) as u16, r.below(300) as u16),
        };
        words[3 + 2 * kind] = first;
        words[4 + 2 * kind] = count;
    }
    for c in 67..323 {
        words[c] = if r.once_in(10) { odd_word(r) } else { r.below(n + 2) as u16 };
    }
    for i in 323..STATE {
        words[i] = match r.below(10) {
            0 => odd_word(r),
            _ if i % 2 == 1 => r.below(n + 2) as u16,
            _ => (256 * r.between(0, 5) + *r.pick(&[0, 1, 2, 100, 255])) as u16,
        };
    }
    words
}

/// A few words of a state changed, mostly of those that a step looks at.
pub fn change_state(r: &mut Random, words: &mut [u16]) {
    for _ in 0..r.between(1, 3) {
        let open = STATE - (words[2] as usize).min(512);
        let i = match r.below(6) {
            0 => r.below(3),
            1 => r.between(3, 66),
            2 => r.between(67, 100),
            3 => r.below(STATE),
            _ => (open + r.below(4)).min(STATE - 1),
        };
        words[i] = match r.below(4) {
            0 => words[i].wrapping_add(1),
            1 => words[i].wrapping_sub(1),
            2 => words[i] ^ 256,
            _ => odd_word(r),
        };
    }
}
