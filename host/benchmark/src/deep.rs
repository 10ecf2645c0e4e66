//! Where the calls go deepest: patterns of 64 words that nest in every way, entered and held; and words that are not lawful.
use crate::calls::{Lent, Row};
use crate::cases::{cases, charges, least, letters, logs, long_deep, long_grid, long_wide, plugged, stairs, with_levels, Case};
use crate::instances::instances;
use bellgantlet::{raw, CHARGE, CHARGES, TABLE, TREE, WITNESS};

/// One kind: 0 has no argument, 1 one, 2 two, 3 four.
pub const ONE_KIND: [u16; 16] = [4, 0, 0, 0, 1, 0, 0, 2, 0, 0, 0, 4, 0, 0, 0, 0];

pub fn rows() -> Vec<Row> {
    let mut all: Vec<Row> = cases().iter().chain(&with_levels()).map(of_case).collect();
    all.push(of_patterns("63 nested", nested(&[1])));
    all.push(of_patterns("63 nots", nested(&[260])));
    all.push(of_patterns("nested nots", [nested(&[260, 1]), nested(&[1, 260]), nested(&[1, 260, 260])].concat()));
    all.push(of_patterns("nested and, or", connectives()));
    all.push(of_patterns("nested wide", wide()));
    all.push(of_patterns("variables under or", variables()));
    all.push(of_case(&long_letters()));
    all.push(of_case(&stairs()));
    all.push(of_case(&nested_stairs()));
    all.push(of_instances());
    all.push(not_lawful());
    all.push(arriving());
    all.push(of_logs());
    all.push(of_charges());
    all
}

fn of_case(c: &Case) -> Row {
    let all = Lent::new(&c.signature, &c.table(c.rules.len()));
    let (number, _, pattern) = c.rules.last().unwrap().clone();
    let fewer = Lent { number, pattern, ..Lent::new(&c.signature, &c.table(c.rules.len() - 1)) };
    let mut inputs = vec![("enter", fewer)];
    // the deepest table is measured with a booking that no rule takes
    let bookings = if c.bookings.is_empty() { &vec![vec![0, 2, 11]] } else { &c.bookings };
    inputs.extend(asked(&Lent { number, ..all }, bookings));
    Row { name: c.name, inputs }
}

/// The calls on a table that holds rules, with bookings.
fn asked(l: &Lent, bookings: &[Vec<u16>]) -> Vec<(&'static str, Lent)> {
    let mut tree = vec![0; TREE];
    let n = raw::compile(&l.signature, &l.table, &mut tree).length;
    tree.truncate(n);
    let mut all: Vec<_> = ["empty", "withdraw", "set_default", "gap", "compile"].into_iter().map(|c| (c, l.clone())).collect();
    for b in bookings {
        let l = Lent { booking: b.clone(), tree: tree.clone(), place: b.len() - 1, ..l.clone() };
        all.extend(["decide", "run", "part"].into_iter().map(|c| (c, l.clone())));
    }
    all.push(("replan", Lent { charges: charges(bookings), tree, ..l.clone() }));
    all
}

/// The calls of a check: its beginning, the steps at the first word of the booking, halfway and at the last, and its end.
fn stepped(signature: &[u16], booking: &[u16]) -> Vec<(&'static str, Lent)> {
    let mut l = Lent { signature: signature.to_vec(), booking: booking.to_vec(), ..Lent::default() };
    let mut all = vec![("check_begin", l.clone())];
    l.make("check_begin");
    let n = l.booking.len();
    for i in 0..n {
        l.word = l.booking[i];
        if [0, n / 2, n - 1].contains(&i) {
            all.push(("check_step", l.clone()));
        }
        l.make("check_step");
    }
    all.push(("check_end", l));
    all
}

/// Each pattern into an empty table; and, where it is entered, once more (12), which shows a booking that it takes.
fn of_patterns(name: &'static str, patterns: Vec<Vec<u16>>) -> Row {
    let mut inputs = vec![];
    for pattern in patterns {
        assert!(pattern.len() <= 64);
        let first = Lent { number: 1, pattern: pattern.clone(), ..Lent::empty(&ONE_KIND) };
        let mut held = first.clone();
        inputs.push(("enter", first));
        if held.make("enter") != 0 {
            continue;
        }
        inputs.push(("enter", Lent { number: 2, ..held.clone() }));
        let mut witness = vec![0; WITNESS];
        let e = raw::enter(&ONE_KIND, 2, 1, &pattern, &mut held.table.clone(), &mut witness);
        let shown = witness[..e.length.max(1)].to_vec();
        let deep = [vec![1; 255], vec![0]].concat();
        inputs.extend(asked(&held, &[shown, deep]));
    }
    Row { name, inputs }
}

/// These words again and again, up to 63, and a last one.
fn nested(words: &[u16]) -> Vec<Vec<u16>> {
    let chain: Vec<u16> = words.iter().copied().cycle().take(63).collect();
    [0, 258, 259, 261].map(|last| [&chain[..], &[last]].concat()).to_vec()
}

/// So many levels of a word with `parts` parts, of which that number nests and the others are `other`.
fn levels(word: u16, parts: usize, nests: usize, other: u16, n: usize, inner: &[u16]) -> Vec<u16> {
    let before = [vec![word], vec![other; nests]].concat().repeat(n);
    [before, inner.to_vec(), vec![other; (parts - 1 - nests) * n]].concat()
}

fn connectives() -> Vec<Vec<u16>> {
    let mut all = vec![];
    for word in [256, 257] {
        for nests in [0, 1] {
            for other in [0, 258, 259, 261] {
                for n in [5, 16, 31] {
                    for nots in [0, 1] {
                        for last in [0, 258, 261] {
                            let inner = [vec![1; 62 - 2 * n], vec![last]].concat();
                            all.push([vec![260; nots], levels(word, 2, nests, other, n, &inner)].concat());
                        }
                    }
                }
            }
        }
    }
    all
}

fn wide() -> Vec<Vec<u16>> {
    let mut all = vec![];
    for (word, parts) in [(2, 2), (3, 4)] {
        for nests in 0..parts {
            for other in [0, 258] {
                for n in [1, 5, 63 / parts - 1] {
                    let inner = [vec![1; 63 - n * parts], vec![258]].concat();
                    all.push(levels(word, parts, nests, other, n, &inner));
                    all.push([vec![260], levels(word, parts, nests, other, n, &inner[1..])].concat());
                }
            }
        }
    }
    all
}

/// Ambiguity is asked so many levels deep, of parts that nest further.
fn variables() -> Vec<Vec<u16>> {
    let mut all = vec![];
    for n in 0..60 {
        for split in [1, (61 - n) / 2, 60 - n] {
            let side = |words: usize| [vec![1; words.max(1) - 1], vec![261]].concat();
            all.push([vec![1; n], vec![257], side(split), side(62 - n - split)].concat());
            all.push([vec![260; n / 2 * 2], vec![257], side(split), side(62 - n - split)].concat());
        }
        // apart, so that the rule is admitted
        for around in [1, 260] {
            let n = n / 2 * 2;
            all.push([vec![around; n], vec![257, 256, 261, 0], vec![1; 59 - n], vec![261]].concat());
        }
    }
    all
}

/// 64 rules that are one chain of 63 letters each, and a booking that is 256 deep.
fn long_letters() -> Case {
    let all = letters("64 rules, 63 nested", 64, 64);
    let bookings = vec![all.bookings[0].clone(), all.bookings[63].clone(), [vec![0; 255], vec![2]].concat()];
    Case { bookings, ..all }
}

/// Stairs one in the other, 232 rows: 0 has one argument, and each rule takes the four without behind so many of it.
fn nested_stairs() -> Case {
    let step = |i: usize| [vec![0; i], vec![257, 257, 257, 1, 2, 3, 4]].concat();
    let rules = (0..58).map(|i| (1 + i as u16, 1, step(i))).collect();
    let bookings = [57, 255].map(|n| [vec![0; n], vec![1]].concat()).to_vec();
    Case { name: "nested stairs", signature: vec![5, 0, 1, 0, 0, 0, 0, 0, 0, 0, 0, 0], rules, bookings }
}

/// The hard tables of gap, each with the booking that no rule takes, or the least.
fn of_instances() -> Row {
    let mut inputs = vec![];
    for i in instances().0 {
        let booking = if i.gap.is_empty() { least(&i.lent.signature) } else { i.gap };
        inputs.extend(asked(&i.lent, &[booking]));
    }
    Row { name: "instances", inputs }
}

/// Words beyond every limit.
fn not_lawful() -> Row {
    let mut inputs = vec![];
    for n in [65, 4096, 65536] {
        for word in [1, 2, 256, 257, 260] {
            inputs.push(("enter", Lent { number: 1, pattern: vec![word; n], ..Lent::empty(&ONE_KIND) }));
            let mut table = [vec![1, 1, 1, 1, n as u16], vec![word; n]].concat();
            table.resize(TABLE, word);
            for call in ["enter", "withdraw", "set_default", "gap", "compile", "decide"] {
                inputs.push((call, Lent { number: 2, pattern: vec![258], booking: vec![0], ..Lent::new(&ONE_KIND, &table) }));
            }
        }
        for word in [0, 1, 2, 3] {
            let l = Lent { booking: vec![word; n], tree: vec![3; n], charges: vec![word; n], ..Lent::empty(&ONE_KIND) };
            inputs.extend(["part", "run", "decide", "replan"].map(|c| (c, l.clone())));
            inputs.extend(stepped(&ONE_KIND, &l.booking));
            let l = Lent { booking: vec![0], number: 1, pattern: vec![258], ..Lent::empty(&vec![word; n]) };
            inputs.extend(["part", "run", "decide", "enter", "withdraw", "set_default", "gap", "compile", "replan"].map(|c| (c, l.clone())));
            inputs.extend(stepped(&l.signature, &[0]));
        }
    }
    Row { name: "not lawful", inputs }
}

/// Bookings checked word by word: those of the cases, of 4,096 words, 256 deep, and under the longest signature.
fn arriving() -> Row {
    let mut inputs = vec![];
    for c in cases().iter().chain(&with_levels()).chain(&[long_letters(), long_grid(), long_wide(), long_deep()]) {
        inputs.extend(c.bookings.last().into_iter().flat_map(|b| stepped(&c.signature, b)));
    }
    inputs.extend(stepped(&longest(), &[vec![0], vec![192; 254], vec![255; 255 * 3 + 1]].concat()));
    Row { name: "word by word", inputs }
}

/// 255 constructors with four arguments, and one without: no lawful signature has more words.
fn longest() -> Vec<u16> {
    let mut words = vec![256];
    (0..255).for_each(|c| words.extend([c / 64, 4, 3, 3, 3, 3]));
    words.extend([3, 0]);
    words
}

/// The logs that are measured, the empty one, and those that are refused at their first entry, at their last and by their length.
fn of_logs() -> Row {
    let mut all: Vec<Vec<u16>> = logs().into_iter().map(|(_, log)| log).collect();
    all.extend([vec![], vec![1000], [vec![7; 4095], vec![65535]].concat(), vec![7; 4097], vec![7; 65536]]);
    Row { name: "logs", inputs: all.into_iter().map(|log| ("tally", Lent { log, ..Lent::default() })).collect() }
}

/// The lists that are measured, one under the longest signature, and the empty one; and those that are refused: by their length, by
/// their last record, and by a tree that is broken for the first or for the last.
fn of_charges() -> Row {
    let (mut inputs, mut all) = (vec![], plugged());
    let nested = [vec![0], vec![192; 14], vec![255; 14 * 3 + 4]].concat();
    all.push(Case { name: "", signature: longest(), rules: vec![(1, 1, vec![258])], bookings: vec![nested; CHARGES] });
    for c in &all {
        let l = asked(&Lent::new(&c.signature, &c.table(c.rules.len())), &c.bookings).pop().unwrap().1;
        let last = l.charges.len() - CHARGE;
        let with = |at: usize, word: u16| [&l.charges[..at], &[word], &l.charges[at + 1..]].concat();
        let lists = [l.charges.clone(), vec![], l.charges.repeat(2), with(last + 2, 62), with(last + CHARGE - 1, 65535), with(last + 3, 65535)];
        inputs.extend(lists.map(|charges| Lent { charges, ..l.clone() }));
        inputs.extend([0, 1, l.tree.len() / 2].map(|n| Lent { tree: l.tree[..n].to_vec(), ..l.clone() }));
    }
    Row { name: "open charges", inputs: inputs.into_iter().map(|l| ("replan", l)).collect() }
}
