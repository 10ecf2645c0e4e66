//! The differential test: the library against the reference, by fixed seeds and by the vectors.
//!
//!     differential [--vectors FOLDER] [--instances FOLDER] [--records FOLDER] [--seed N] [--scale PERCENT]
use reference::calls::{sound, TABLE};
use reference::charges::{list_of, Charge, RECORD, RECORDS, ROOM};
use reference::compare::{Compare, States};
use reference::gap::{counted, small_untaken};
use reference::instance::Instance;
use reference::json::Json;
use reference::pattern::{self, admitted};
use reference::random::*;
use reference::rows::{rows_of, shared_value, Side};
use reference::signature::{all_values, Signature};
use reference::stepped::step;
use reference::{tally, text};
use std::time::Instant;

const T: [u16; 15] = [6, 0, 2, 1, 2, 1, 0, 1, 0, 1, 0, 2, 0, 2, 0];
const TREE_T: [u16; 39] =
    [2, 0, 1, 4, 2, 1, 3, 10, 17, 28, 3, 1, 7, 40, 1, 0, 2, 2, 4, 2, 22, 24, 0, 1, 1, 9, 41, 0, 2, 4, 2, 33, 35, 0, 1, 1, 9, 41, 0];

fn main() {
    // the reference recurses over trees as deep as a tree may be
    let work = std::thread::Builder::new().stack_size(512 << 20).spawn(work).unwrap();
    if work.join().is_err() {
        std::process::exit(1);
    }
}

fn option(name: &str) -> Option<String> {
    let args: Vec<String> = std::env::args().collect();
    args.iter().position(|a| a == name).map(|i| args[i + 1].clone())
}

fn work() {
    let seed: u64 = option("--seed").map_or(1, |s| s.parse().unwrap());
    let scale: usize = option("--scale").map_or(100, |s| s.parse().unwrap());
    let mut c = Compare::new();
    if let Some(folder) = option("--vectors") {
        timed(&mut c, "vectors", |c| vectors(c, &folder));
    }
    if let Some(folder) = option("--instances") {
        timed(&mut c, "instances", |c| instances(c, &folder));
    }
    if let Some(folder) = option("--records") {
        timed(&mut c, "records", |c| records(c, &folder));
    }
    let tests: [(&str, usize, fn(&mut Compare, &mut Random)); 14] = [
        ("signatures", 12000, signatures),
        ("bookings and parts", 12000, bookings),
        ("patterns into an empty table", 60000, patterns),
        ("brute force over small bookings", 10000, brute),
        ("lists of calls", 5000, lists),
        ("full tables", 60, full),
        ("changed tables", 4000, tables),
        ("changed trees", 2500, trees),
        ("limits", 1, limits),
        ("forged states", 20000, forged),
        ("gaps of small tables", 2000, gaps),
        ("gaps of parted kinds", 1500, parted),
        ("logs", 6000, logs),
        ("open charges", 2500, charges),
    ];
    for (i, (name, times, test)) in tests.into_iter().enumerate() {
        timed(&mut c, name, |c| {
            let mut r = Random::new(seed * 1000 + i as u64);
            for _ in 0..(times * scale / 100).max(1) {
                test(c, &mut r);
            }
        });
    }
    summary(&c, scale);
}

fn timed(c: &mut Compare, name: &str, f: impl FnOnce(&mut Compare)) {
    let (before, start) = (c.calls(), Instant::now());
    f(c);
    println!("{name}: {} calls compared, {:.1} s", c.calls() - before, start.elapsed().as_secs_f64());
}

/// Each call's numbers: those that 01 lets it give, all of them reached.
fn summary(c: &Compare, scale: usize) {
    let known: [(&str, &[u16]); 14] = [
        ("empty", &[0, 2]),
        ("enter", &[0, 1, 2, 3, 4, 5, 7, 8, 9, 10, 11, 12, 18]),
        ("withdraw", &[0, 1, 2, 3, 4, 6]),
        ("set_default", &[0, 1, 2, 3]),
        ("compile", &[0, 1, 2, 3, 14]),
        ("decide", &[0, 1, 2, 3, 13]),
        ("gap", &[0, 1, 2, 3]),
        ("run", &[0, 1, 13, 15]),
        ("part", &[0, 1, 13, 16]),
        ("check_begin", &[0, 1]),
        ("check_step", &[0, 1, 13]),
        ("check_end", &[0, 1, 13]),
        ("tally", &[0, 19]),
        ("replan", &[0, 1, 13, 15, 20]),
    ];
    for (call, numbers) in known {
        let of = |n: &u16| c.given.get(&(call, *n)).copied().unwrap_or(0);
        let line: Vec<String> = numbers.iter().map(|n| format!("{n}: {}", of(n))).collect();
        println!("{call:12} {}", line.join(", "));
        assert!(scale < 100 || numbers.iter().all(|n| of(n) > 0), "a number of {call} was not reached");
    }
    println!("{} calls compared, {} of them of checks word by word, no difference", c.calls(), c.of_checks());
    assert!(scale < 100 || c.calls() - c.of_checks() >= 100_000);
}

// ---- the tests

fn fresh(r: &mut Random) -> Vec<u16> {
    let n = *r.pick(&[TABLE, TABLE, TABLE + 1, 5000]);
    (0..n).map(|_| r.next() as u16).collect()
}

fn emptied(c: &mut Compare, r: &mut Random) -> Vec<u16> {
    let mut table = fresh(r);
    assert_eq!(c.empty(&mut table), 0);
    table
}

/// A default plan: the least, the greatest, that of an emptied table, or any.
fn plan(r: &mut Random) -> u16 {
    let any = r.next() as u16;
    *r.pick(&[0, 1, 65535, any])
}

/// Words of a witness buffer, once in a while too few.
fn witness(r: &mut Random) -> Vec<u16> {
    let n = if r.once_in(20) { *r.pick(&[0, 4095]) } else { *r.pick(&[4096, 4097, 5000]) };
    vec![r.next() as u16; n]
}

fn size(r: &mut Random) -> Size {
    *r.pick(&[Size::Small, Size::Medium, Size::Medium, Size::Large])
}

/// Every call under a signature that may be damaged.
fn signatures(c: &mut Compare, r: &mut Random) {
    let of = size(r);
    let (mut words, sig) = signature(r, of);
    let b = booking(r, &sig);
    let p = rule_pattern(r, &sig);
    if !r.once_in(4) {
        damage(r, &mut words);
    }
    if r.once_in(50) {
        words = (0..r.below(30)).map(|_| r.below(4) as u16).collect();
    }
    c.part(&words, &b, r.below(b.len() + 1));
    let tree = [*r.pick(&[0, 3]), 1, 5, 6, 0];
    c.run(&words, &tree, &b);
    if r.once_in(3) {
        let mut table = emptied(c, r);
        c.enter(&words, 5, 6, &p, &mut table, 4096);
        c.decide(&words, &table, &b);
        c.compile(&words, &table, &vec![9; 600]).ok();
        c.gap(&words, &table, &witness(r)).ok();
        c.set_default(&words, plan(r), &mut table);
        c.withdraw(&words, 5, &mut table);
    }
}

fn bookings(c: &mut Compare, r: &mut Random) {
    let of = size(r);
    let (words, sig) = signature(r, of);
    let mut b = booking(r, &sig);
    if r.once_in(3) {
        damage(r, &mut b);
    }
    c.part(&words, &b, r.below(b.len() + 2));
    c.part(&words, &b, if r.once_in(9) { usize::MAX } else { b.len().saturating_sub(1) });
    let mut tree = vec![3, 1, 999, 65535, 1, 7, 0];
    if r.once_in(4) {
        damage(r, &mut tree);
    }
    c.run(&words, &tree, &b);
}

fn patterns(c: &mut Compare, r: &mut Random) {
    let of = size(r);
    let (words, sig) = if r.once_in(10) { (T.to_vec(), Signature::read(&T).unwrap()) } else { signature(r, of) };
    let mut p = if r.once_in(8) { heavy_pattern(r, &sig) } else { rule_pattern(r, &sig) };
    if r.once_in(4) {
        damage(r, &mut p);
    }
    let mut table = vec![0; TABLE];
    if c.enter(&words, r.between(1, 999) as u16, r.next() as u16, &p, &mut table, 4096) != 0 || r.once_in(2) {
        return;
    }
    let tree = c.compile(&words, &table, &vec![7; 32768]);
    let rule = &sound(&sig, &table).unwrap()[0];
    for i in 0..2 {
        let b = if rule.rows.is_empty() || i == 0 {
            booking(r, &sig)
        } else {
            let row = r.pick(&rule.rows).clone();
            value_in(r, &sig, 0, &row).words()
        };
        let direct = c.decide(&words, &table, &b);
        if let Ok(t) = &tree {
            assert_eq!(direct, c.run(&words, t, &b));
        }
    }
}

/// Overlap and ambiguity of small patterns, against all small bookings; the reference's own rows are judged by this too.
fn brute(c: &mut Compare, r: &mut Random) {
    let (words, sig) = signature(r, Size::Small);
    let all = all_values(&sig, 0, 7, 300);
    let (p, q) = (rule_pattern(r, &sig), rule_pattern(r, &sig));
    let mut table = vec![0; TABLE];
    if let Some(a) = pattern::read(&sig, &p) {
        // a pattern is refused with 10 where some value is taken in two ways
        if admitted(&sig, &p).is_ok() {
            assert!(all.iter().all(|v| a.fits_with(v, 0).len() <= 1), "admitted, and taken in two ways: {words:?} {p:?}");
            assert!(all.iter().all(|v| a.fits(v) != a.fails(v)));
        }
    }
    let first = c.enter(&words, 1, 1, &p, &mut table, 4096);
    let second = c.enter(&words, 2, 2, &q, &mut table, 4096);
    if first != 0 || (second != 0 && second != 12) {
        return;
    }
    let (a, b) = (admitted(&sig, &p).unwrap(), admitted(&sig, &q).unwrap());
    let rows = (rows_of(&sig, &a, 0, Side::Plus), rows_of(&sig, &b, 0, Side::Plus));
    for v in &all {
        assert_eq!(a.fits(v), rows.0.iter().any(|row| row_takes(row, v)), "rows take what their pattern fits");
        assert!(second == 12 || !(a.fits(v) && b.fits(v)), "both take {v:?}: {words:?} {p:?} {q:?}");
    }
    if let Some(v) = shared_value(&sig, 0, &rows.0, &rows.1) {
        assert!(a.fits(&v) && b.fits(&v));
        assert_eq!(second, 12);
    } else {
        assert_eq!(second, 0);
    }
    let tree = c.compile(&words, &table, &vec![7; 2000]);
    for _ in 0..4 {
        let b = r.pick(&all).words();
        let direct = c.decide(&words, &table, &b);
        if let Ok(t) = &tree {
            assert_eq!(direct, c.run(&words, t, &b));
        }
    }
}

fn row_takes(row: &reference::rows::Row, v: &reference::signature::Value) -> bool {
    use reference::rows::Test;
    match &row.test {
        Test::Named(c, parts) => *c == v.head && parts.iter().zip(&v.arguments).all(|(p, u)| row_takes(p, u)),
        Test::Excluded(out) => !out.contains(&v.head),
    }
}

/// Some patterns; each further one may exclude what earlier ones take, so that many of them stand side by side.
fn family(r: &mut Random, sig: &Signature, n: usize) -> Vec<Vec<u16>> {
    let mut all: Vec<Vec<u16>> = vec![];
    while all.len() < n {
        let mut p = rule_pattern(r, sig);
        for _ in 0..r.below(4) {
            if let (false, false) = (all.is_empty(), r.once_in(3)) {
                let q = r.pick(&all).clone();
                if p.len() + q.len() + 2 <= 64 {
                    p = [vec![256], p, vec![260], q].concat();
                }
            }
        }
        all.push(p);
    }
    all
}

/// A list of calls from an emptied table; returns the table.
fn list(c: &mut Compare, r: &mut Random, words: &[u16], sig: &Signature) -> Vec<u16> {
    let mut table = emptied(c, r);
    let n = r.between(2, 12);
    let all = family(r, sig, n);
    let numbers: Vec<u16> = (0..r.between(2, 14)).map(|_| r.between(1, 999) as u16).collect();
    for _ in 0..r.between(3, 30) {
        let number = if r.once_in(25) { *r.pick(&[0, 1000, 65535]) } else { *r.pick(&numbers) };
        if r.once_in(4) {
            c.withdraw(words, number, &mut table);
            continue;
        }
        if r.once_in(8) {
            c.set_default(words, plan(r), &mut table);
            continue;
        }
        let mut p = r.pick(&all).clone();
        if r.once_in(12) {
            damage(r, &mut p);
        }
        let witness = if r.once_in(20) { *r.pick(&[0, 4095]) } else { *r.pick(&[4096, 4096, 4100]) };
        c.enter(words, number, r.next() as u16, &p, &mut table, witness);
    }
    table
}

/// Bookings for a table: what its rules take, and others.
fn asked(r: &mut Random, sig: &Signature, table: &[u16]) -> Vec<u16> {
    if let (Some(rules), true) = (sound(sig, table), r.once_in(2)) {
        let with: Vec<_> = rules.iter().filter(|x| !x.rows.is_empty()).collect();
        if !with.is_empty() {
            let rule = r.pick(&with);
            let row = r.pick(&rule.rows).clone();
            return value_in(r, sig, 0, &row).words();
        }
    }
    let mut b = booking(r, sig);
    if r.once_in(10) {
        damage(r, &mut b);
    }
    b
}

fn compiled(c: &mut Compare, r: &mut Random, words: &[u16], table: &[u16]) -> Option<Vec<u16>> {
    let space: Vec<u16> = (0..40000).map(|i| i as u16).collect();
    let tree = c.compile(words, table, &space).ok();
    if let (Some(t), true) = (&tree, r.once_in(3)) {
        let n = t.len();
        assert_eq!(c.compile(words, table, &space[..n]).as_ref(), Ok(t));
        assert_eq!(c.compile(words, table, &space[..n - 1]), Err(14));
        c.compile(words, table, &space[..r.below(n)]).ok();
    }
    tree
}

/// The gap of a sound table: there is one where the tree has a default leaf.
fn asked_gap(c: &mut Compare, r: &mut Random, words: &[u16], table: &[u16], tree: Option<&[u16]>) -> Option<Vec<u16>> {
    let words_lent = *r.pick(&[4096, 4097, 5000]);
    let witness: Vec<u16> = (0..words_lent).map(|i| (i * 7 + 40000) as u16).collect();
    let shown = c.gap(words, table, &witness).unwrap();
    if let Some(t) = tree {
        assert_eq!(shown.is_some(), default_leaf(t), "{words:?} {table:?}");
    }
    if let Some(b) = &shown {
        let direct = c.decide(words, table, b);
        assert_eq!(direct, (0, 0, table[1], [65535; 16]));
    }
    shown
}

/// Whether a tree has a default leaf; its nodes stand one behind the other.
fn default_leaf(tree: &[u16]) -> bool {
    let mut at = 0;
    while at < tree.len() {
        let count = |i: usize| tree[at + i] as usize;
        at += match tree[at] {
            0 => return true,
            1 => 4 + 2 * count(3),
            2 => 3 + count(2),
            3 => 1,
            _ => 2 + 2 * count(1),
        };
    }
    false
}

fn lists(c: &mut Compare, r: &mut Random) {
    let of = size(r);
    let (words, sig) = signature(r, of);
    let table = list(c, r, &words, &sig);
    let tree = compiled(c, r, &words, &table);
    asked_gap(c, r, &words, &table, tree.as_deref());
    // another default from here on: the table's answers change with it where no rule takes a booking, the tree's do not
    let mut other = table.clone();
    assert_eq!(c.set_default(&words, plan(r), &mut other), 0);
    for _ in 0..8 {
        let b = asked(r, &sig, &table);
        let direct = c.decide(&words, &table, &b);
        if let Some(t) = &tree {
            assert_eq!(direct, c.run(&words, t, &b));
        }
        let unmatched = direct.0 == 0 && direct.1 == 0;
        let expected = (direct.0, direct.1, if unmatched { other[1] } else { direct.2 }, direct.3);
        assert_eq!(c.decide(&words, &other, &b), expected);
    }
}

/// 64 rules, or weights of 256 in all, or one short of it; rules apart by one wide kind.
fn full(c: &mut Compare, r: &mut Random) {
    let (words, sig) = {
        let mut w = vec![67u16, 0, 2, 1, 2, 1, 4, 1, 1, 1, 1, 1, 0];
        for _ in 0..64 {
            w.extend([2, 0]);
        }
        (w.clone(), Signature::read(&w).unwrap())
    };
    let mut table = emptied(c, r);
    let kind = r.below(3);
    for i in 0..80u16 {
        let left: Vec<u16> = match kind {
            // weights of 4, 64 times; of 1 to 9; of any size
            0 => vec![257, 257, 258, 2, 257, 2, 1, 258, 258, 2, 2],
            1 => (0..r.below(9)).flat_map(|_| [257, 2]).chain([258]).collect(),
            _ => pattern(r, &sig, 1, Side::Plus, 20, &[]).words(),
        };
        let p = [vec![0], left, vec![3 + i % 64]].concat();
        let number = if r.once_in(90) { 1 } else { 1 + i * 101 % 999 };
        c.enter(&words, number, i, &p, &mut table, 4096);
        if i > 64 && r.once_in(4) {
            let held = table[2];
            c.withdraw(&words, held, &mut table);
        }
    }
    let tree = compiled(c, r, &words, &table);
    asked_gap(c, r, &words, &table, tree.as_deref());
    for _ in 0..20 {
        let b = asked(r, &sig, &table);
        let direct = c.decide(&words, &table, &b);
        if let Some(t) = &tree {
            assert_eq!(direct, c.run(&words, t, &b));
        }
    }
}

fn tables(c: &mut Compare, r: &mut Random) {
    let of = *r.pick(&[Size::Small, Size::Medium]);
    let (words, sig) = signature(r, of);
    let good = list(c, r, &words, &sig);
    for _ in 0..4 {
        let mut table = good.clone();
        changed(r, &mut table);
        let mut words = words.clone();
        if r.once_in(10) {
            damage(r, &mut words);
        }
        let b = asked(r, &sig, &good);
        c.decide(&words, &table, &b);
        if r.once_in(2) {
            c.compile(&words, &table, &vec![5; 3000]).ok();
            c.gap(&words, &table, &witness(r)).ok();
            c.withdraw(&words, good[2], &mut table.clone());
            c.set_default(&words, plan(r), &mut table.clone());
            let p = rule_pattern(r, &sig);
            c.enter(&words, r.between(1, 999) as u16, 1, &p, &mut table, 4096);
        }
        if r.once_in(20) {
            table.truncate(r.between(4200, TABLE));
            c.empty(&mut table.clone());
            c.decide(&words, &table, &b);
            c.compile(&words, &table, &[]).ok();
            c.gap(&words, &table, &witness(r)).ok();
            c.withdraw(&words, 1, &mut table.clone());
            c.set_default(&words, plan(r), &mut table.clone());
            c.enter(&words, 1, 1, &[258], &mut table, 4096);
        }
    }
}

/// Words of a table changed where the default or rules stand, or just behind, or anywhere.
fn changed(r: &mut Random, table: &mut [u16]) {
    let mut used = 2;
    for _ in 0..table[0] {
        used += 3 + table[used + 2] as usize;
    }
    for i in 0..r.between(1, 2) {
        match r.below(11) {
            0 => table[0] = odd_word(r),
            1 => table[0] = table[0].wrapping_add(r.below(3) as u16).wrapping_sub(1),
            2 => {
                let i = r.below(TABLE);
                table[i] = odd_word(r);
            }
            3 => {
                let i = r.between(TABLE - 3, table.len() - 1);
                table[i] = odd_word(r);
            }
            4 => {
                let i = r.between(1, used);
                table[i.min(TABLE - 1)] = table[i.min(TABLE - 1)].wrapping_add(1);
            }
            5 => {
                let (i, j) = (r.between(0, used), r.between(0, used));
                table.swap(i, j);
            }
            6 if i == 0 && used < 2000 => {
                // the rules once more behind themselves, under other numbers: they share bookings with themselves
                let n = used - 2;
                table.copy_within(2..used, used);
                let mut at = used;
                for _ in 0..table[0] {
                    table[at] = table[at].saturating_add(r.below(900) as u16);
                    at += 3 + table[at + 2] as usize;
                }
                table[0] *= 2;
                used += n;
            }
            7 if i == 0 && table[0] > 1 => {
                // a rule under the number of the next one, or under one more or one less
                let mut at = 2;
                for _ in 0..r.below(table[0] as usize - 1) {
                    at += 3 + table[at + 2] as usize;
                }
                let next = table[at + 3 + table[at + 2] as usize];
                table[at] = next + r.below(3) as u16 - 1;
            }
            8 => table[1] = odd_word(r),
            _ => {
                let i = r.between(1, used).min(TABLE - 1);
                table[i] = odd_word(r);
            }
        }
        used = used.min(TABLE - 1);
    }
}

fn trees(c: &mut Compare, r: &mut Random) {
    let of = *r.pick(&[Size::Small, Size::Medium]);
    let (words, sig) = signature(r, of);
    let table = list(c, r, &words, &sig);
    let tree = compiled(c, r, &words, &table).unwrap_or(vec![3, 0, 9]);
    for _ in 0..15 {
        let mut t = tree.clone();
        let n = t.len();
        let b = asked(r, &sig, &table);
        match r.below(7) {
            0 | 1 | 2 => near_front(r, &mut t),
            3 => damage(r, &mut t),
            4 => t.truncate(r.below(n + 1)),
            // cut in the leaf where the run ends, or behind it; or that leaf's last word, a default leaf's plan, is another
            5 => {
                let needed = needed(c, &words, &t, &b);
                match r.below(4) {
                    0 if needed > 0 => t[needed - 1] = odd_word(r),
                    _ => t.truncate((needed + 1).saturating_sub(r.below(4))),
                }
            }
            _ => t = (0..r.below(30)).map(|_| *r.pick(&[0, 1, 1, 2, 3, 3, 3, 4, 4, 5, 7, 12, 100])).collect(),
        }
        c.run(&words, &t, &b);
    }
}

/// Words of a tree changed, many of them near the front, where runs walk.
fn near_front(r: &mut Random, tree: &mut [u16]) {
    let n = tree.len();
    for _ in 0..r.between(1, 4) {
        let i = if r.once_in(2) { r.below(n.min(40)) } else { r.below(n) };
        tree[i] = match r.below(4) {
            0 => r.below(5) as u16,
            1 => tree[i].wrapping_add(1),
            2 => r.below(n + 2) as u16,
            _ => odd_word(r),
        };
    }
}

/// How many words of a tree a run needs; all where none are enough.
fn needed(c: &mut Compare, sig: &[u16], tree: &[u16], booking: &[u16]) -> usize {
    let (mut few, mut enough) = (0, tree.len());
    while few < enough {
        let n = (few + enough) / 2;
        match c.model.run(sig, &tree[..n], booking).0 {
            15 => few = n + 1,
            _ => enough = n,
        }
    }
    enough
}

/// The gaps of small tables against all bookings, where these are few, or against small ones.
fn gaps(c: &mut Compare, r: &mut Random) {
    let (words, sig) = signature(r, Size::Small);
    let mut table = list(c, r, &words, &sig);
    if r.once_in(2) {
        rest(c, &words, &mut table);
    }
    let shown = asked_gap(c, r, &words, &table, None);
    let rules = sound(&sig, &table).unwrap();
    match counted(&sig, 0, 500, 12) {
        Some(n) => {
            let all = all_values(&sig, 0, 4096, n);
            assert_eq!(all.len(), n);
            let left = all.iter().any(|v| rules.iter().all(|x| x.pattern.fails(v)));
            assert_eq!(shown.is_some(), left, "{words:?} {table:?}");
        }
        None => assert!(shown.is_some() || small_untaken(&sig, &rules, 6, 200).is_none(), "{words:?} {table:?}"),
    }
}

/// One more rule for all that the others leave, if it may enter: their negation, without variables.
fn rest(c: &mut Compare, words: &[u16], table: &mut Vec<u16>) {
    let sig = Signature::read(words).unwrap();
    let mut p = vec![260];
    for rule in sound(&sig, table).unwrap() {
        let fixed = rule.words.iter().map(|w| if (261..=276).contains(w) { 258 } else { *w });
        p = [p, vec![257], fixed.collect()].concat();
    }
    p.push(259);
    let free = (1..=999).find(|n| !numbers(table).contains(n)).unwrap();
    c.enter(words, free, 1, &p, table, 4096);
}

/// The numbers of a sound table's rules.
fn numbers(table: &[u16]) -> Vec<u16> {
    let mut at = 2;
    let mut all = vec![];
    for _ in 0..table[0] {
        all.push(table[at]);
        at += 3 + table[at + 2] as usize;
    }
    all
}

/// Rules that part all bookings leave no gap; without one of them the gap is what that one took.
fn parted(c: &mut Compare, r: &mut Random) {
    let of = size(r);
    let (words, sig) = signature(r, of);
    let n = r.between(1, 40);
    let pieces = pieces(r, &sig, n);
    let mut table = emptied(c, r);
    for (i, p) in pieces.iter().enumerate() {
        assert_eq!(c.enter(&words, 1 + i as u16, 7, &p.words(), &mut table, 4096), 0, "{words:?} {pieces:?}");
    }
    let tree = compiled(c, r, &words, &table);
    assert_eq!(asked_gap(c, r, &words, &table, tree.as_deref()), None);
    for _ in 0..3 {
        let i = r.below(pieces.len());
        let mut less = table.clone();
        c.withdraw(&words, 1 + i as u16, &mut less);
        let shown = asked_gap(c, r, &words, &less, None).expect("a gap");
        assert!(pieces[i].fits(&sig.read_booking(&shown).unwrap()), "{words:?} {less:?} {shown:?}");
    }
}

/// States of a check that no begin and step made, or that were made under another signature, stepped some words.
fn forged(c: &mut Compare, r: &mut Random) {
    let of = size(r);
    let (mut words, sig) = signature(r, of);
    let b = booking(r, &sig);
    let mut states = match r.below(4) {
        0 => States::of(&state(r, words.len())),
        1 => {
            let of = size(r);
            let (other, sig) = signature(r, of);
            let b = booking(r, &sig);
            begun(c, r, &other, &b)
        }
        2 => {
            let mut state = begun(c, r, &words, &b).words().to_vec();
            change_state(r, &mut state);
            States::of(&state)
        }
        _ => begun(c, r, &words, &b),
    };
    match r.below(6) {
        0 => damage(r, &mut words),
        1 => words.truncate(r.below(words.len() + 1)),
        2 => words.resize(*r.pick(&[1533, 1536, 1537, 1538, 4000]), r.below(6) as u16),
        _ => {}
    }
    for _ in 0..r.between(1, 40) {
        let word = if r.once_in(10) { odd_word(r) } else { likely(r, &words, states.words()) };
        c.check_step(&words, &mut states, word);
        c.check_end(&states);
    }
}

/// A check begun, and stepped some of the words.
fn begun(c: &mut Compare, r: &mut Random, sig: &[u16], booking: &[u16]) -> States {
    let mut states = c.check_begin(sig);
    for word in &booking[..r.below(booking.len() + 1)] {
        c.check_step(sig, &mut states, *word);
    }
    states
}

/// A word that may stand next, if one is soon found.
fn likely(r: &mut Random, sig: &[u16], state: &[u16]) -> u16 {
    let mut word = 0;
    for i in 0..12 {
        word = if i % 4 == 0 { r.between(1000, 1100) } else { r.below(if i % 2 == 0 { 12 } else { 150 }) } as u16;
        if step(sig, &mut state.to_vec(), word) == 0 {
            break;
        }
    }
    word
}

/// Logs of a few rules, of one, of all; of any length; some with an entry above 999.
fn logs(c: &mut Compare, r: &mut Random) {
    let n = match r.below(8) {
        0 | 1 => r.below(12),
        2 => r.below(300),
        3 | 4 => r.between(4090, 4100),
        5 => r.below(4097),
        6 => r.between(4097, 20000),
        // where a length of 16 bits would begin again
        _ => 65536 + r.below(4100),
    };
    let rules: Vec<u16> = match r.below(5) {
        0 => (0..1000).collect(),
        1 => vec![0, 1, 998, 999],
        2 => vec![r.below(1000) as u16],
        _ => (0..r.between(2, 60)).map(|_| r.below(1000) as u16).collect(),
    };
    // each of them once, as far as there is room, then any
    let mut log: Vec<u16> = (0..n).map(|i| if i < rules.len() { rules[i] } else { *r.pick(&rules) }).collect();
    for i in (1..n.min(4097)).rev() {
        log.swap(i, r.below(i + 1));
    }
    if n > 0 && r.once_in(4) {
        let (at, above) = (r.below(n), r.between(1000, 65535) as u16);
        log[*r.pick(&[0, n - 1, at])] = *r.pick(&[1000, 1001, 1023, 1024, 65535, above]);
    }
    c.tally(&log);
}

/// Open charges under the tree of a table. Lists, trees and signatures are damaged in every way, also several at once.
fn charges(c: &mut Compare, r: &mut Random) {
    let of = *r.pick(&[Size::Small, Size::Medium]);
    let (words, sig) = signature(r, of);
    let table = list(c, r, &words, &sig);
    let tree = compiled(c, r, &words, &table).unwrap_or(vec![3, 0, 9]);
    for _ in 0..12 {
        let n = match r.below(8) {
            0 => 0,
            1 => 1,
            2 => RECORDS,
            3 => r.between(RECORDS - 1, RECORDS + 1),
            _ => r.below(13),
        };
        let lawful = !r.once_in(3);
        let plugged: Vec<Charge> = (0..n).map(|_| plugged(r, &sig, &table, lawful)).collect();
        let (mut words, mut tree, mut list) = (words.clone(), tree.clone(), list_of(&plugged));
        if r.once_in(3) {
            malformed(r, &mut list);
        }
        if r.once_in(4) {
            near_front(r, &mut tree);
        }
        if r.once_in(12) {
            tree.clear();
        }
        if r.once_in(12) {
            damage(r, &mut words);
        }
        c.replan(&words, &tree, &list);
    }
    through_a_change(c, r, &words, &sig, table);
}

/// Open charges as one tree answered them, answered again after a rule is withdrawn or the default plan is another.
fn through_a_change(c: &mut Compare, r: &mut Random, words: &[u16], sig: &Signature, mut table: Vec<u16>) {
    let Some(before) = compiled(c, r, words, &table) else { return };
    let plugged: Vec<Charge> = (0..r.between(1, RECORDS)).map(|_| plugged(r, sig, &table, true)).collect();
    let (_, _, list) = c.replan(words, &before, &list_of(&plugged));
    match &numbers(&table)[..] {
        held @ [_, ..] if !r.once_in(4) => c.withdraw(words, *r.pick(held), &mut table),
        _ => c.set_default(words, plan(r), &mut table),
    };
    let Some(after) = compiled(c, r, words, &table) else { return };
    assert_eq!(c.replan(words, &after, &list).0, 0);
}

/// A charge with a booking of 1 to 61 words, lawful where that is asked for; its rule and plan may be any words.
fn plugged(r: &mut Random, sig: &Signature, table: &[u16], lawful: bool) -> Charge {
    let mut booking = asked(r, sig, table);
    if booking.is_empty() || booking.len() > ROOM || (lawful && sig.read_booking(&booking).is_none()) {
        booking = sig.least_value(0).words();
    }
    if !lawful && r.once_in(10) {
        booking = (0..r.between(1, ROOM)).map(|_| odd_word(r)).collect();
    }
    let known = numbers(table);
    let rule = if known.is_empty() || r.once_in(3) { odd_word(r) } else { *r.pick(&known) };
    (rule, plan(r), booking)
}

/// A list that is malformed, more often than not.
fn malformed(r: &mut Random, list: &mut Vec<u16>) {
    let n = list.len();
    if n == 0 || r.once_in(4) {
        // a part of a record, too many records, as many as begin again at a length of 16 bits
        let parted = (n / RECORD).saturating_sub(r.below(2)) * RECORD + r.between(1, RECORD - 1);
        list.resize(*r.pick(&[parted, n + 1, n.max(1) - 1, 49 * RECORD, 65536, 65536 + n]), r.below(2) as u16);
        return;
    }
    let record = &mut list[r.below(n / RECORD) * RECORD..][..RECORD];
    let length = record[2] as usize;
    match r.below(3) {
        0 => record[2] = *r.pick(&[0, 1, 60, 61, 62, 63, 64, 65535, length as u16 + 1, length as u16 - 1, length as u16 + 256]),
        1 => record[*r.pick(&[(3 + length).min(RECORD - 1), RECORD - 1])] = r.between(1, 65535) as u16,
        _ => record[r.below(RECORD)] = odd_word(r),
    }
}

/// Bookings of 4,095 to 4,097 words and 255 to 257 deep, tables and patterns at their limits, logs and open charges at theirs, Case T.
fn limits(c: &mut Compare, r: &mut Random) {
    // kind 0: 0 (one argument), 1 (two), 2 (none)
    let sig = [3, 0, 1, 0, 0, 2, 0, 0, 0, 0];
    for n in 4090..4100 {
        let b = exact(n);
        for place in [0, 1, n / 2, n - 1, n, n + 1] {
            c.part(&sig, &b, place);
        }
        // 4,096 visits: every part is taken
        c.run(&sig, &[2, 0, 3, 6, 6, 6, 3, 0, 9], &b);
        let mut walk = vec![3; 1];
        walk.extend([1, 1, 1, 1, 0, 0]);
        c.run(&sig, &walk, &b);
    }
    // a tree that branches at every word, links of each node to the next: visits up to the limit
    for n in [1usize, 50, 4095, 4096] {
        let mut tree = vec![];
        for _ in 0..n {
            let next = tree.len() as u16 + 6;
            tree.extend([2, 0, 3, next, next, next]);
        }
        tree.extend([1, 9, 9, 2, 0, 0, 15, (n - 1) as u16]);
        c.run(&sig, &tree, &exact(n));
        let last = tree.len() - 1;
        tree[last] += 1;
        c.run(&sig, &tree, &exact(n));
    }
    // a level is one word, one deep; the deepest bookings end in one
    let levels = [3, 0, 1, 0, 0, 1, 1, 1, 5];
    for n in 253..259 {
        let b: Vec<u16> = std::iter::repeat(0).take(n - 2).chain([1, 1037]).collect();
        c.part(&levels, &b, n - 1);
        c.run(&levels, &[3, 0, 9], &b);
    }
    for level in 998..1103 {
        c.run(&levels, &[2, 0, 2, 5, 5, 4, 4, 0, 63, 64, 100, 15, 15, 16, 0, 1, 7, 8, 0], &[1, level]);
        for k in 0..5 {
            c.run(&levels, &[2, 0, 2, 5, 5, 4, k, 0, 63, 64, 100, 15, 15, 15, 16, 0, 1, 7, 8, 0], &[1, level]);
        }
    }
    for (low, high) in [(0, 100), (0, 0), (100, 100), (63, 64), (64, 63), (0, 101), (101, 101), (65535, 0), (0, 65535), (258, 258)] {
        for p in [vec![1, 280, low, high], vec![1, 260, 280, low, high], vec![1, 256, 280, low, high, 260, 280, 10, 90]] {
            let mut table = vec![0; TABLE];
            c.enter(&levels, 1, 1, &p, &mut table, 4096);
            let tree = c.compile(&levels, &table, &[0; 600]).unwrap();
            for level in [1000, 1009, 1010, 1062, 1063, 1064, 1065, 1090, 1091, 1099, 1100] {
                assert_eq!(c.decide(&levels, &table, &[1, level]), c.run(&levels, &tree, &[1, level]));
            }
        }
    }
    for n in 250..260 {
        let b: Vec<u16> = std::iter::repeat(0).take(n - 1).chain([2]).collect();
        c.part(&sig, &b, n - 1);
        c.run(&sig, &[3, 0, 9], &b);
    }
    for n in [1usize, 2, 62, 63, 64, 65, 66] {
        for last in [2, 258, 261, 259] {
            let p: Vec<u16> = std::iter::repeat(0).take(n - 1).chain([last]).collect();
            c.enter(&sig, 1, 1, &p, &mut vec![0; TABLE], 4096);
            let p: Vec<u16> = std::iter::repeat(260).take(n - 1).chain([last]).collect();
            c.enter(&sig, 1, 1, &p, &mut vec![0; TABLE], 4096);
        }
    }
    for (a, b) in [(8, 8), (5, 13), (7, 9), (1, 64), (1, 65), (16, 4), (13, 5)] {
        let or = |n: usize| -> Vec<u16> { (0..n - 1).flat_map(|_| [257, 258]).chain([258]).collect() };
        let p = [vec![256], or(a), or(b)].concat();
        c.enter(&T, 1, 1, &p, &mut vec![0; TABLE], 4096);
    }
    for n in [0, 1, 2, TABLE - 1, TABLE, TABLE + 1] {
        c.empty(&mut vec![7; n]);
        for w in [0, 7] {
            let table = vec![w; n];
            c.set_default(&T, 5, &mut table.clone());
            c.set_default(&T[1..], 5, &mut table.clone());
        }
    }
    defaults(c);
    stepped_at_limits(c);
    signatures_at_limits(c);
    tables_at_limits(c);
    logs_at_limits(c);
    charges_at_limits(c);
    charged_bookings(c);
    charges_refused(c);
    case_t(c);
    let _ = r;
}

/// Trees by hand whose default leaf ends with the slice, or before it; booking left at it is no fault.
fn defaults(c: &mut Compare) {
    for plan in [0, 1, 9, 65535] {
        for tree in [vec![0, plan], vec![3, 0, plan], vec![2, 0, 1, 4, 0, plan], vec![2, 0, 1, 4, 3, 3, 0, plan], vec![3, 3, 0, plan]] {
            for n in 0..=tree.len() {
                c.run(&T, &tree[..n], &[0, 1, 5]);
            }
            c.run(&T, &[&tree[..], &[0]].concat(), &[0, 1, 5]);
        }
    }
}

/// Checks with as many open values as there can be, under the longest signature, and under longer slices.
fn stepped_at_limits(c: &mut Compare) {
    // so many nested, with three values of each due at the innermost
    let sig = [2, 0, 4, 0, 0, 0, 0, 0, 0];
    for n in 254..258 {
        for behind in [0, 1, 3 * n - 1, 3 * n, 3 * n + 1] {
            c.stepped(&sig, &[vec![0; n], vec![1], vec![1; behind]].concat());
        }
    }
    let longest = longest();
    c.stepped(&longest, &[0, 255, 254, 255, 255, 255, 255, 192, 255, 255, 255, 255, 255]);
    c.stepped(&longest, &[63, 255, 191, 255]);
    for n in [1534, 1537, 1538, 65536] {
        let mut long = longest.clone();
        long.resize(n, 0);
        c.stepped(&long, &[0, 255]);
        c.stepped(&vec![0; n], &[0, 255]);
        // a state made under the signature, stepped under a longer slice
        let mut states = c.check_begin(&longest);
        for word in [63, 255, 191] {
            c.check_step(&long, &mut states, word);
        }
    }
    c.stepped(&[], &[]);
    c.stepped(&[1, 0, 5], &[1000]);
    forged_at_limits(c);
}

/// 255 constructors with four arguments of kind 3, and one of that kind without: no lawful signature is longer.
fn longest() -> Vec<u16> {
    let rows = (0..256).flat_map(|c| if c == 255 { vec![3, 0] } else { vec![c / 64, 4, 3, 3, 3, 3] });
    [256].into_iter().chain(rows).collect()
}

/// States by hand, each just inside and just outside of what a step asks for.
fn forged_at_limits(c: &mut Compare) {
    let sig = longest();
    let n = sig.len();
    // words behind the signature that a step must not read
    let more = [&sig[..], &[0; 9]].concat();
    let sig = &more[..n];
    // every word of the open values can be the index of kind 0, and one argument due that may be nested 3 deep
    let mut base = c.check_begin(sig).words().to_vec();
    base[1] = 7;
    base[2] = 4;
    base[323..].fill(259);
    let mut tried = |sig: &[u16], changes: &[(usize, u16)], word: u16| {
        let mut state = base.clone();
        changes.iter().for_each(|(i, w)| state[*i] = *w);
        let mut states = States::of(&state);
        for word in [word, 5, 255] {
            c.check_step(sig, &mut states, word);
            c.check_end(&states);
        }
    };
    for w in [0, 1, 2, 12, 13, 14, 65535] {
        tried(sig, &[(0, w)], 5);
    }
    for w in [0, 1, 4094, 4095, 4096, 65535] {
        tried(sig, &[(1, w)], 5);
        tried(sig, &[(1, w), (2, 0)], 5);
    }
    for w in (0..5).chain(507..516).chain([65535]) {
        tried(sig, &[(2, w)], 5);
        tried(sig, &[(1, 0), (2, w)], 5);
    }
    for x in [0, 1, 255, 256, 257, 511, 512, 513, 1279, 1280, 1281, 65279, 65280, 65535] {
        tried(sig, &[(832, x)], 5);
    }
    for w in n - 2..n + 2 {
        tried(sig, &[(831, w as u16)], 5);
        tried(sig, &[(67 + 5, w as u16)], 5);
    }
    tried(sig, &[(831, 65535)], 5);
    tried(sig, &[(67 + 5, 65535)], 5);
    // kind 31 is the last one; behind it stand the rows
    for kind in [30, 31, 32, 33, 65535] {
        let mut sig = sig.to_vec();
        sig[259] = kind;
        tried(&sig, &[(65, 1000), (66, 5), (67, 1000), (68, 5)], 1002);
    }
    for (first, count) in [(5, 0), (5, 1), (4, 1), (4, 2), (6, 1), (6, 65535), (0, 65535)] {
        tried(sig, &[(3, first), (4, count)], 5);
        tried(sig, &[(3, 65530 + first), (4, count)], 65535);
    }
    for w in (253..260).chain(998..1003) {
        tried(sig, &[(3, 250), (4, 1000), (322, 1), (323, 1), (324, 1)], w);
    }
    for m in 0..8 {
        let mut sig = sig.to_vec();
        sig[2] = m;
        tried(&sig, &[], 0);
    }
}

/// Signatures by hand: 31 to 34 kinds, 63 to 66 constructors of a kind, 255 to 257 constructors, least values of 5 to 8 words, 3 to 5 arguments.
fn signatures_at_limits(c: &mut Compare) {
    let of = |kinds: &[Vec<Vec<u16>>]| {
        let mut w = vec![kinds.iter().map(|k| k.len()).sum::<usize>() as u16];
        for (k, constructors) in kinds.iter().enumerate() {
            for a in constructors {
                w.extend([k as u16, a.len() as u16]);
                w.extend(a);
            }
        }
        w
    };
    let mut all = vec![];
    for n in 31..=34 {
        all.push(of(&vec![vec![vec![]]; n]));
    }
    for n in 63..=66 {
        all.push(of(&[vec![vec![]; n]]));
        all.push(of(&[vec![vec![1]], vec![vec![]; n]]));
    }
    for n in 255..=257 {
        let mut kinds = vec![vec![vec![]; 32]; 7];
        kinds.push(vec![vec![]; n - 7 * 32]);
        all.push(of(&kinds));
    }
    for n in 5..=8u16 {
        // a chain of kinds, one value each; and one value with a wide constructor
        let mut kinds: Vec<Vec<Vec<u16>>> = (1..n).map(|k| vec![vec![k]]).collect();
        kinds.push(vec![vec![]]);
        all.push(of(&kinds));
        all.push(of(&[vec![vec![1, 1]], vec![vec![2; n as usize / 2 - 1]], vec![vec![]]]));
    }
    for n in 3..=5 {
        all.push(of(&[vec![vec![], vec![0; n]]]));
    }
    for words in all {
        let b = Signature::read(&words).map_or(vec![0], |sig| sig.least_value(0).words());
        c.part(&words, &b, b.len() - 1);
        c.run(&words, &[3, 1, 1, 1, 0], &b);
        c.enter(&words, 1, 1, &[260, 0], &mut vec![0; TABLE], 4096);
    }
}

/// Tables by hand: 63 to 66 rules that take nothing; 64 rules that weigh 255 to 257 in all; numbers up to 1,000; a table that is full to its last word.
fn tables_at_limits(c: &mut Compare) {
    let mut wide = vec![67u16, 0, 2, 1, 2, 1, 4, 1, 1, 1, 1, 1, 0];
    wide.extend([2, 0].repeat(64));
    let stored = |rules: &[(u16, Vec<u16>)]| {
        let mut t = vec![rules.len() as u16, 6];
        for (n, p) in rules {
            t.extend([*n, 5, p.len() as u16]);
            t.extend(p);
        }
        t.resize(TABLE.max(t.len()), 0);
        t
    };
    let mut tables = vec![];
    for n in 63..=66u16 {
        tables.push(stored(&(1..=n).map(|i| (i, vec![259])).collect::<Vec<_>>()));
    }
    for more in 0..=2 {
        // weights of 4, one of them 3, 4 or 5
        let weighs = |i: u16| (0..if i == 9 { 2 + more } else { 3 }).flat_map(|_| [257, 2]).chain([258]).collect::<Vec<u16>>();
        tables.push(stored(&(0..64).map(|i| (1 + i, [vec![0], weighs(i), vec![3 + i]].concat())).collect::<Vec<_>>()));
    }
    for n in [998, 999, 1000] {
        tables.push(stored(&[(n, vec![258])]));
    }
    for n in [63, 64, 65] {
        let long = |i: u16, n: usize| [vec![0], vec![260; n - 3], vec![258, 3 + i]].concat();
        tables.push(stored(&(0..64).map(|i| (1 + i, long(i, if i == 63 { n } else { 64 }))).collect::<Vec<_>>()));
    }
    for table in tables {
        c.decide(&wide, &table, &[0, 2, 3]);
        c.withdraw(&wide, 1, &mut table.clone());
        c.set_default(&wide, 7, &mut table.clone());
        c.compile(&wide, &table, &[0; 3000]).ok();
        c.enter(&wide, 997, 1, &[259], &mut table.clone(), 4096);
    }
}

/// Logs of one entry again and again, of each rule so often, and with one entry above 999.
fn logs_at_limits(c: &mut Compare) {
    for n in [0, 1, 2, 4095, 4096, 4097, 65535, 65536, 65537, 65536 + 4096] {
        for entry in [0, 1, 998, 999, 1000, 1001, 65535] {
            c.tally(&vec![entry; n]);
        }
    }
    for last in 997..1003 {
        c.tally(&(0..=last).collect::<Vec<u16>>());
    }
    let each: Vec<u16> = (0..1000).rev().collect();
    for n in 4095..4098 {
        let mut log = each.repeat(5);
        log.truncate(n);
        c.tally(&log);
        for at in [0, 1, n / 2, n - 2, n - 1] {
            for entry in [999, 1000, 65535] {
                c.tally(&[&log[..at], &[entry], &log[at + 1..]].concat());
            }
        }
    }
}

/// An open charge that no tree has answered yet.
fn unanswered(booking: &[u16]) -> Charge {
    (65535, 65535, booking.to_vec())
}

/// Lists of so many records over T's tree and over none; two records cut at each word, and with each word another.
fn charges_at_limits(c: &mut Compare) {
    for n in (0..51).chain([1023, 1024, 1025, 1072]) {
        let list = list_of(&vec![unanswered(&[0, 1, 5]); n]);
        for tree in [&TREE_T[..], &[]] {
            let number = if n > RECORDS { 20 } else if n > 0 && tree.is_empty() { 15 } else { 0 };
            assert_eq!(c.replan(&T, tree, &list).0, number);
            assert_eq!(c.replan(&T[1..], tree, &list).0, 1);
        }
    }
    let two = list_of(&[unanswered(&[0, 1, 5]), unanswered(&[0, 2, 4])]);
    for n in 0..=two.len() {
        assert_eq!(c.replan(&T, &TREE_T, &two[..n]).0, if n % RECORD == 0 { 0 } else { 20 });
    }
    for at in 0..two.len() {
        for word in [0, 1, 2, 3, 4, 5, 61, 62, 65535] {
            c.replan(&T, &TREE_T, &[&two[..at], &[word], &two[at + 1..]].concat());
        }
    }
    // the rule changes, and its plan does not
    assert_eq!(c.replan(&T, &TREE_T, &list_of(&[(8, 40, vec![0, 1, 5]), (9, 41, vec![0, 3, 4])])).1, 1);
}

/// Bookings of 1 to 61 words, under a signature that has one of each length, with that length and with others.
fn charged_bookings(c: &mut Compare) {
    let sig = [3, 0, 1, 0, 0, 2, 0, 0, 0, 0];
    for n in 1..=ROOM {
        let list = list_of(&[unanswered(&exact(n)), unanswered(&exact(ROOM + 1 - n))]);
        assert_eq!(c.replan(&sig, &[0, 9], &list).0, 0);
        for length in [0, n - 1, n + 1, 62, 65535] {
            c.replan(&sig, &[0, 9], &[&list[..2], &[length as u16], &list[3..]].concat());
        }
    }
}

/// 13 and 15 in one list, in both orders; 20 before them, and 1 before 20.
fn charges_refused(c: &mut Compare) {
    // the leaf of rule 7 has no rule: 15 for what begins with 0 1
    let mut broken = TREE_T;
    broken[12] = 0;
    let [fine, at_leaf, unlawful] = [&[0, 2, 5][..], &[0, 1, 5], &[0, 1]].map(unanswered);
    let lists = [
        ([&fine, &at_leaf, &unlawful], 15),
        ([&fine, &unlawful, &at_leaf], 13),
        ([&at_leaf, &fine, &unlawful], 15),
        ([&unlawful, &at_leaf, &fine], 13),
        ([&fine, &fine, &fine], 0),
    ];
    for (charges, number) in lists {
        let list = list_of(&charges.map(Charge::clone));
        assert_eq!(c.replan(&T, &broken, &list).0, number);
        let longer = [&list[..], &[0]].concat();
        assert_eq!(c.replan(&T, &broken, &longer).0, 20);
        assert_eq!(c.replan(&T[..14], &broken, &longer).0, 1);
    }
}

/// A value of exactly n words.
fn exact(n: usize) -> Vec<u16> {
    match n {
        1 => vec![2],
        2 => vec![0, 2],
        _ => {
            let a = (n - 1) / 2;
            [vec![1], exact(a), exact(n - 1 - a)].concat()
        }
    }
}

fn case_t(c: &mut Compare) {
    let mut table = vec![7; TABLE];
    c.empty(&mut table);
    assert_eq!(c.enter(&T, 7, 40, &[0, 1, 261], &mut table, 4096), 0);
    assert_eq!(c.enter(&T, 9, 41, &[0, 260, 1, 5], &mut table, 4096), 0);
    let tree = c.compile(&T, &table, &[0; 39]).unwrap();
    assert_eq!(tree, TREE_T);
    for b in [[0, 1, 5], [0, 2, 5], [0, 3, 4]] {
        assert_eq!(c.run(&T, &tree, &b), c.decide(&T, &table, &b));
    }
    assert_eq!(c.decide(&T, &table, &[0, 3, 4]), (0, 0, 1, [65535; 16]));
    assert_eq!(c.enter(&T, 8, 1, &[0, 258, 4], &mut table, 4096), 12);
    let cases: [(&[u16], u16); 7] = [
        (&[260, 260, 261], 0),
        (&[260, 261], 0),
        (&[257, 261, 261], 10),
        (&[256, 261, 261], 8),
        (&[257, 261, 258], 8),
        (&[260, 0, 261, 258], 0),
        (&[260, 0, 260, 261, 258], 8),
    ];
    for (p, n) in cases {
        assert_eq!(c.enter(&T, 1, 1, p, &mut vec![0; TABLE], 4096), n);
    }
}

// ---- the vectors

fn vectors(c: &mut Compare, folder: &str) {
    let mut files: Vec<_> = std::fs::read_dir(folder).unwrap().map(|f| f.unwrap().path()).collect();
    files.retain(|f| f.extension().is_some_and(|e| e == "json"));
    files.sort();
    for f in &files {
        let v = Json::read(&std::fs::read_to_string(f).unwrap());
        match v.has("calls") {
            true => vector(c, &v, &f.display().to_string()),
            false => v.get("records").list().iter().for_each(|r| record(c, r)),
        }
    }
    println!("{} files in {folder}", files.len());
}

fn vector(c: &mut Compare, v: &Json, name: &str) {
    let sig = v.get("sig").words();
    let mut table = vec![9; v.get("table_words").number()];
    c.empty(&mut table);
    performed(c, &sig, v.get("calls"), v.get("numbers"), &mut table, name);
    assert_eq!(table[1] as usize, v.get("default").number(), "{name}");
    let mut expected = v.get("table").words();
    expected.resize(TABLE, 0);
    expected.resize(table.len(), 9);
    assert_eq!(table, expected, "{name}");
    let result = v.get("compile").words();
    match c.compile(&sig, &table, &vec![9; v.get("space").number()]) {
        Ok(tree) => assert!(result == [0, tree.len() as u16] && tree == v.get("tree").words(), "{name}"),
        Err(n) => assert_eq!(result, [n, 0], "{name}"),
    }
    for d in v.get("decide").list() {
        check(c.decide(&sig, &table, &d.get("booking").words()), d.get("answer"), name);
    }
    for d in v.get("run").list() {
        check(c.run(&sig, &d.get("tree").words(), &d.get("booking").words()), d.get("answer"), name);
    }
    if v.has("records") {
        v.get("records").list().iter().for_each(|r| record(c, r));
    }
}

/// Calls made of a table as it stands; each must give its number.
fn performed(c: &mut Compare, sig: &[u16], calls: &Json, numbers: &Json, table: &mut Vec<u16>, name: &str) {
    let numbers = numbers.packed();
    assert_eq!(calls.list().len(), numbers.len(), "{name}");
    for (call, number) in calls.list().iter().zip(numbers) {
        let call = call.list();
        let n = call[1].number() as u16;
        let got = match call[0].text() {
            "enter" => c.enter(sig, n, call[2].number() as u16, &call[3].words(), table, call[4].number()),
            "withdraw" => c.withdraw(sig, n, table),
            "default" => c.set_default(sig, n, table),
            call => panic!("no call {call}"),
        };
        assert_eq!(got, number, "{name}");
    }
}

/// Tables with their gap: sound, and a booking is shown where the file has one.
fn instances(c: &mut Compare, folder: &str) {
    let mut files: Vec<_> = std::fs::read_dir(folder).unwrap().map(|f| f.unwrap().path()).collect();
    files.sort();
    for f in &files {
        instance(c, &Instance::read(&std::fs::read_to_string(f).unwrap()), &f.file_stem().unwrap().to_string_lossy());
    }
    println!("{} files in {folder}", files.len());
}

fn instance(c: &mut Compare, of: &Instance, name: &str) {
    let sig = &of.signature;
    let mut table = vec![9; TABLE];
    c.empty(&mut table);
    for (number, plan, pattern) in &of.rules {
        assert_eq!(c.enter(sig, *number, *plan, pattern, &mut table, 4096), 0, "{name}");
    }
    let shown = c.gap(sig, &table, &[9; 4100]).unwrap();
    assert_eq!(shown.is_some(), !of.gap.is_empty(), "{name}");
    for b in shown.iter().chain([&of.gap]).filter(|b| !b.is_empty()) {
        assert_eq!(c.decide(sig, &table, b), (0, 0, 1, [65535; 16]), "{name}");
    }
    let tree = c.compile(sig, &table, &[9; 32768]);
    assert!(!name.starts_with("brief31") || tree == Err(14), "{name}");
    if let Ok(t) = tree {
        assert_eq!(shown.is_some(), default_leaf(&t), "{name}");
    }
}

/// Single calls with what must come out: a file has a list of them. In a slice `[w, n]` stands for n times w.
fn records(c: &mut Compare, folder: &str) {
    let mut files: Vec<_> = std::fs::read_dir(folder).unwrap().map(|f| f.unwrap().path()).collect();
    files.sort();
    for f in files {
        let all = Json::read(&std::fs::read_to_string(&f).unwrap());
        all.get("records").list().iter().for_each(|r| record(c, r));
    }
}

fn record(c: &mut Compare, r: &Json) {
    let (given, out) = (r.get("in"), r.get("out"));
    let words = |key: &str| given.get(key).packed();
    let sig = if given.has("sig") { words("sig") } else { vec![] };
    let number = |got: u16| assert_eq!(got as usize, out.get("number").number(), "{r:?}");
    let after = |key: &str, before: Vec<u16>| if let Json::Text(_) = out.get(key) { before } else { out.get(key).packed() };
    let answer = |a: reference::calls::Answer| {
        let expected = ["number", "rule", "plan"].map(|k| out.get(k).number() as u16);
        assert_eq!(([a.0, a.1, a.2], a.3.to_vec()), (expected, out.get("places").packed()), "{r:?}");
    };
    match r.get("call").text() {
        "stepped" => {
            let (first, last) = c.stepped(&sig, &words("booking"));
            number(last);
            let expected = out.get("prefixes").packed();
            assert_eq!(first[..expected.len()], expected, "{r:?}");
        }
        "sig_lawful" => assert_eq!(c.part(&sig, &[], 0) != 1, out.get("lawful").truth(), "{r:?}"),
        "booking_number" => number(c.part(&sig, &words("booking"), 0)),
        "part" => number(c.part(&sig, &words("booking"), given.get("place").number())),
        "pattern_number" => number(c.enter(&sig, 1, 1, &words("pattern"), &mut vec![0; TABLE], 4096)),
        "enter" => {
            let mut table = words("table");
            let expected = after("table", table.clone());
            let n = ["rule", "plan"].map(|k| given.get(k).number() as u16);
            number(c.enter(&sig, n[0], n[1], &words("pattern"), &mut table, words("witness").len()));
            assert_eq!(table, expected, "{r:?}");
        }
        "empty" | "set_default" => {
            let mut table = words("table");
            let expected = after("table", table.clone());
            number(match given.has("plan") {
                true => c.set_default(&sig, given.get("plan").number() as u16, &mut table),
                false => c.empty(&mut table),
            });
            assert_eq!(table, expected, "{r:?}");
        }
        "list" => {
            let mut table = words("table");
            let expected = after("table", table.clone());
            let name = format!("{r:?}");
            let decided = |c: &mut Compare, table: &[u16], key: &str| {
                for (b, a) in given.get("bookings").list().iter().zip(out.get(key).list()) {
                    check(c.decide(&sig, table, &b.words()), a, &name);
                }
            };
            decided(c, &table, "before");
            performed(c, &sig, given.get("calls"), out.get("numbers"), &mut table, &name);
            assert_eq!(table, expected, "{name}");
            decided(c, &table, "after");
        }
        // of the reference alone
        "program" => assert_eq!(text::printed(&given.get("text").bytes()), out.get("printed").text(), "{r:?}"),
        "tally_program" => assert_eq!(tally::printed(&given.get("text").bytes()), out.get("printed").text(), "{r:?}"),
        "tally" => {
            let (got, lines, total) = c.tally(&words("log"));
            number(got);
            let flat: Vec<u16> = lines.iter().flat_map(|(rule, count)| [*rule, *count]).collect();
            assert_eq!((flat, total as usize), (out.get("lines").words(), out.get("total").number()), "{r:?}");
        }
        "open_charges" => {
            let charges = words("charges");
            let (got, changed, list) = c.replan(&sig, &words("tree"), &charges);
            number(got);
            assert_eq!((changed as usize, list), (out.get("changed").number(), after("charges", charges)), "{r:?}");
        }
        "decide" => answer(c.decide(&sig, &words("table"), &words("booking"))),
        "gap" => {
            let table = words("table");
            let length = out.get("length").number();
            match c.gap(&sig, &table, &words("witness")) {
                Ok(shown) => {
                    number(0);
                    assert_eq!(shown.is_some(), length > 0, "{r:?}");
                }
                Err(n) => number(n),
            }
            // the booking of the record is another that qualifies, or the same
            if length > 0 {
                let one = after("witness", vec![]);
                assert_eq!(c.decide(&sig, &table, &one[..length]), (0, 0, table[1], [65535; 16]), "{r:?}");
            }
        }
        "run" => answer(c.run(&sig, &words("tree"), &words("booking"))),
        "compile" => {
            let space = words("space");
            match c.compile(&sig, &words("table"), &space) {
                Ok(tree) => assert_eq!((tree.len(), &tree[..]), (out.get("length").number(), &after("space", space)[..tree.len()]), "{r:?}"),
                Err(n) => number(n),
            }
        }
        call => panic!("no call {call}"),
    }
}

fn check(got: reference::calls::Answer, expected: &Json, name: &str) {
    let a = expected.list();
    let n = |i: usize| a[i].number() as u16;
    assert_eq!((got.0, got.1, got.2, got.3.to_vec()), (n(0), n(1), n(2), a[3].words()), "{name}");
}
