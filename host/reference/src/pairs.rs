//! The test data of the gate's program `pairs`: lists of patterns, made with a fixed seed, and the lines that it must print.
use crate::pattern;
use crate::random::{self, Random, Size};
use crate::rows::{meet, rows_of, Row, Side};
use crate::signature::Signature;
use crate::stored::{spaced, Booking};

/// Signature and patterns, each of these behind its number of words; in words as a booking of `steps` is.
pub type Patterns = Booking;

const SEED: u64 = 4309;
/// What the patterns of a case weigh at most, and so how many rows they have.
const ROWS: usize = 256;
const PATTERN: usize = 64;

fn packed(patterns: &[Vec<u16>]) -> Vec<u16> {
    patterns.iter().flat_map(|p| [&[p.len() as u16], &p[..]].concat()).collect()
}

fn unpacked(mut words: &[u16]) -> Vec<&[u16]> {
    let mut all = vec![];
    while let [n, rest @ ..] = words {
        let (p, behind) = rest.split_at(*n as usize);
        all.push(p);
        words = behind;
    }
    all
}

pub fn patterns_text((s, ps): &Patterns) -> String {
    let each: String = unpacked(ps).iter().map(|p| format!(" pattern{}", spaced(p))).collect();
    format!("signature{}{each}", spaced(s))
}

/// An "or" of so many.
fn either(parts: &[Vec<u16>]) -> Vec<u16> {
    [vec![257; parts.len() - 1], parts.concat()].concat()
}

fn cases_by_hand() -> Vec<(Vec<u16>, Vec<Vec<u16>>)> {
    let t = vec![6, 0, 2, 1, 2, 1, 0, 1, 0, 1, 0, 2, 0, 2, 0];
    let (seven, nine) = (vec![0, 1, 261], vec![0, 260, 1, 5]);
    let four = either(&vec![vec![258]; 4]);
    let sixty_four = [vec![256, 256], four.clone(), four.clone(), four.clone()].concat();
    // a booking is a level; a chain of levels, which ends with 1
    let (level, levels) = (vec![1, 0, 5], vec![3, 0, 2, 1, 0, 0, 0, 1, 5]);
    vec![
        (t.clone(), vec![]),
        (t.clone(), vec![seven.clone(), nine.clone()]),
        // without rows, alone and between others
        (t.clone(), vec![vec![259], vec![260, 258], vec![256, 0, 1, 258, 0, 2, 258], vec![0, 259, 258]]),
        (t.clone(), vec![seven.clone(), vec![259], nine.clone(), vec![260, 261], vec![258]]),
        // refused: 7, 9, 18, and over 256 in all
        (t.clone(), vec![vec![0, 1], seven.clone(), vec![], vec![0, 4, 1], nine.clone(), vec![258; PATTERN + 1]]),
        (t.clone(), vec![[vec![257], sixty_four.clone(), vec![258]].concat(), nine.clone()]),
        (levels.clone(), vec![vec![0, 280, 60, 20, 258], vec![0, 280, 20, 60, 258], vec![0, 280, 0, 101, 258]]),
        (t.clone(), [vec![seven.clone()], vec![sixty_four.clone(); 4], vec![nine.clone()]].concat()),
        // open everywhere
        (t.clone(), vec![sixty_four.clone(); 4]),
        (t.clone(), vec![vec![258]; ROWS]),
        // equal rows of one rule, and of several
        (t.clone(), vec![[vec![0], four.clone(), four.clone()].concat(), seven.clone(), [vec![257], nine.clone(), nine.clone()].concat()]),
        (t.clone(), vec![either(&vec![vec![0, 2, 258]; 12]), either(&vec![nine.clone(); 12]), either(&vec![vec![0, 2, 4]; 12])]),
        (level, vec![vec![280, 0, 50], vec![280, 50, 63], vec![280, 64, 100], vec![260, 280, 0, 99], vec![280, 0, 100], vec![1037]]),
    ]
}

/// Rules that each exclude heads of their own at every place, and name one at the last.
fn own_exclusions(r: &mut Random, rules: u16, places: usize, rows: usize, named: bool) -> (Vec<u16>, Vec<Vec<u16>>) {
    // 0 has two places and the next pair, 1 none; heads 2 to 65
    let signature = [vec![66, 0, 3, 1, 1, 0, 0, 0], [1, 0].repeat(64)].concat();
    let place = |r: &mut Random, i: u16| match r.below(4) {
        0 => vec![260, 2 + i],
        1 => vec![260, 257, 2 + i, 2 + r.below(64) as u16],
        2 => vec![256, 260, 2 + i, 260, 2 + r.below(64) as u16],
        _ => vec![2 + r.below(8) as u16],
    };
    let rule = |r: &mut Random, i: u16| {
        let mut p = vec![];
        for j in 0..places {
            p.extend(if j % 2 == 0 { vec![0] } else { vec![] });
            p.extend(if j == 0 && rows > 1 { either(&vec![vec![260, 2 + i]; rows]) } else { place(r, i) });
        }
        p.extend(if places % 2 == 1 { vec![if named { 2 + i } else { 258 }] } else { vec![] });
        p.push(1);
        p
    };
    (signature, (0..rules).map(|i| rule(r, i)).collect())
}

/// Chains of 60 places of two letters, which part at a place each; open from some place on, now and then.
fn chains(r: &mut Random, rules: usize, open: bool) -> (Vec<u16>, Vec<Vec<u16>>) {
    let chain = |r: &mut Random| {
        let (at, end) = (r.below(59), if open && r.once_in(2) { r.between(1, 59) } else { 59 });
        let letters = (0..end).map(|i| (i == at) as u16).collect();
        [letters, vec![if end < 59 { *r.pick(&[258, 258, 261, 2]) } else { 2 }]].concat()
    };
    (vec![3, 0, 1, 0, 0, 1, 0, 0, 0], (0..rules).map(|_| chain(r)).collect())
}

/// Rules of 48 words that are alike but for the last, and of so many rows each.
fn last_place(rules: u16, rows: usize) -> (Vec<u16>, Vec<Vec<u16>>) {
    // kind 0: 0; kind 1: 1 (three arguments), 2; kind 2: 3 to 66
    let signature = [vec![67, 0, 2, 1, 2, 1, 3, 1, 1, 1, 1, 0], [2, 0].repeat(64)].concat();
    fn full(inner: usize, out: &mut Vec<u16>) {
        if inner == 0 {
            return out.push(2);
        }
        out.push(1);
        (0..3).for_each(|i| full((inner - 1) / 3 + (i < (inner - 1) % 3) as usize, out));
    }
    let mut body = vec![];
    full(if rows == 1 { 15 } else { 13 }, &mut body);
    let last = body.pop().unwrap();
    body.extend(if rows == 1 { vec![last] } else { either(&vec![vec![258]; rows]) });
    (signature, (0..rules).map(|i| [vec![0], body.clone(), vec![3 + i]].concat()).collect())
}

/// Ranges at three places, cut at the same few levels.
fn boxes(r: &mut Random, rules: usize) -> (Vec<u16>, Vec<Vec<u16>>) {
    let edges = [0u16, 1, 20, 21, 62, 63, 64, 65, 99, 100];
    let range = |r: &mut Random| {
        let (a, b) = (*r.pick(&edges), *r.pick(&edges));
        let range = vec![280, a.min(b), a.max(b)];
        match r.below(5) {
            0 => vec![258],
            1 => [vec![260], range].concat(),
            2 => [vec![257], range, vec![280, 40, 50]].concat(),
            _ => range,
        }
    };
    let rule = |r: &mut Random| [vec![0], range(r), range(r), range(r)].concat();
    (vec![2, 0, 3, 1, 1, 1, 1, 5], (0..rules).map(|_| rule(r)).collect())
}

/// Each rule takes three of four heads at a place, where all places before it have the fourth.
fn stairs(places: usize) -> (Vec<u16>, Vec<Vec<u16>>) {
    // 0 has one head and the rest, 1 none; heads 2 to 5
    let signature = vec![6, 0, 2, 1, 0, 0, 0, 1, 0, 1, 0, 1, 0, 1, 0];
    let rule = |step| [[0, 5].repeat(step), vec![0], either(&[vec![2], vec![3], vec![4]]), vec![258]].concat();
    (signature, (0..places).map(rule).collect())
}

/// Random patterns of a random signature, with some of them again.
fn random_patterns(r: &mut Random, size: Size, most: usize, words: usize) -> (Vec<u16>, Vec<Vec<u16>>) {
    let (signature, sig) = random::signature(r, size);
    let mut patterns: Vec<Vec<u16>> = vec![];
    for _ in 0..r.between(2, most) {
        let variables: &[u8] = if r.once_in(3) { &[0, 3] } else { &[] };
        let n = r.between(3, words);
        let p = random::pattern(r, &sig, 0, Side::Plus, n, variables).words();
        patterns.push(if !patterns.is_empty() && r.once_in(8) { r.pick(&patterns).clone() } else { p });
    }
    (signature, patterns)
}

pub fn cases() -> Vec<Patterns> {
    let r = &mut Random::new(SEED);
    let mut all = cases_by_hand();
    all.extend((0..16).map(|_| random_patterns(r, Size::Small, 24, 14)));
    all.extend((0..12).map(|_| random_patterns(r, Size::Medium, 24, 20)));
    all.extend((0..4).map(|_| random_patterns(r, Size::Large, 24, 30)));
    for (rules, places, rows, named) in [(8, 2, 1, false), (16, 5, 1, true), (64, 4, 4, false), (64, 5, 4, true), (24, 9, 3, false)] {
        all.push(own_exclusions(r, rules, places, rows, named));
    }
    all.extend([(12, false), (20, true), (40, true)].map(|(rules, open)| chains(r, rules, open)));
    all.extend([last_place(20, 1), last_place(64, 4)]);
    all.extend([6, 20, 40].map(|rules| boxes(r, rules)));
    all.extend([stairs(3), stairs(28)]);
    all.into_iter().map(|(s, ps)| (s, packed(&ps))).collect()
}

/// The rows of the patterns that are not refused by 7, 18 or 9 and not too heavy with those before them.
fn rows(sig: &Signature, patterns: &[u16]) -> Vec<Row> {
    let (mut all, mut weight) = (vec![], 0);
    for words in unpacked(patterns) {
        let Some(p) = pattern::read(sig, words) else { continue };
        if p.wrong_range() || p.too_heavy(Side::Plus) || weight + p.weight(Side::Plus) > ROWS as u128 {
            continue;
        }
        weight += p.weight(Side::Plus);
        all.extend(rows_of(sig, &p, 0, Side::Plus));
    }
    all
}

/// The line of a case: how many rows, how many pairs of them meet, twice, in how many they differ, and the check number.
pub fn paired((s, ps): &Patterns) -> String {
    let sig = Signature::read(s).unwrap();
    let rows = rows(&sig, ps);
    let (mut met, mut check) = (0, 0);
    for (i, a) in rows.iter().enumerate() {
        for (j, _) in rows.iter().enumerate().filter(|(_, b)| meet(&sig, 0, a, b)) {
            met += 1;
            check = (65599 * check + (ROWS * i + j) as u64 + 1) % 4294967291;
        }
    }
    format!("{} {met} {met} 0 {check}\n", rows.len())
}
