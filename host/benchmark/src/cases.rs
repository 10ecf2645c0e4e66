//! The tables that are measured.
use reference::charges::{list_of, RECORDS, ROOM};

pub struct Case {
    pub name: &'static str,
    pub signature: Vec<u16>,
    /// number, plan, pattern; rising by number
    pub rules: Vec<(u16, u16, Vec<u16>)>,
    /// For each rule of the table a booking that it takes.
    pub bookings: Vec<Vec<u16>>,
}

impl Case {
    pub fn table(&self, rules: usize) -> Vec<u16> {
        let mut w = vec![rules as u16, 1];
        for (number, plan, pattern) in &self.rules[..rules] {
            w.extend([*number, *plan, pattern.len() as u16]);
            w.extend(pattern);
        }
        w.resize(bellgantlet::TABLE, 0);
        w
    }
}

/// The constructors of each kind, each by the kinds of its arguments.
fn signature(kinds: &[&[&[u16]]]) -> Vec<u16> {
    let mut w = vec![kinds.iter().map(|k| k.len()).sum::<usize>() as u16];
    for (k, constructors) in kinds.iter().enumerate() {
        for a in constructors.iter() {
            w.extend([k as u16, a.len() as u16]);
            w.extend(a.iter());
        }
    }
    w
}

/// Bus, bay and energy: a rule for each bus and bay, which notes the energy unless it is the least.
fn grid(name: &'static str, n: usize) -> Case {
    let eight: Vec<&[u16]> = vec![&[]; 8];
    // kind 0: 0; buses 1 to 8; bays 9 to 16; energies 17 (two parts), 18, 19
    let signature = signature(&[&[&[1, 2, 3]], &eight, &eight, &[&[3, 3], &[], &[]]]);
    let mut rules = vec![];
    for i in 0..8u16 {
        for j in 0..8u16 {
            rules.push((1 + i * 8 + j, j, vec![0, 1 + i, 9 + j, 256, 261, 260, 18]));
        }
    }
    rules.truncate(n);
    // one for each rule, of 4 and of 6 words by turns
    let energy = |number: u16| if number % 2 == 1 { vec![17, 18, 19] } else { vec![19] };
    let bookings = rules.iter().map(|(number, _, p)| [p[..3].to_vec(), energy(*number)].concat()).collect();
    Case { name, signature, rules, bookings }
}

/// A full tree of four-armed nodes with so many inner nodes.
fn full_tree(k: usize, node: u16, leaf: u16, out: &mut Vec<u16>) {
    if k == 0 {
        return out.push(leaf);
    }
    out.push(node);
    for i in 0..4 {
        full_tree((k - 1) / 4 + (i < (k - 1) % 4) as usize, node, leaf, out);
    }
}

/// 64 rules of 60 words and weight 4, alike but for the last place.
fn heaviest() -> Case {
    let sixty_four: Vec<&[u16]> = vec![&[]; 64];
    // kind 0: 0; kind 1: 1 (four arguments), 2; kind 2: 3 to 66
    let signature = signature(&[&[&[1, 2]], &[&[1, 1, 1, 1], &[]], &sixty_four]);
    let mut body = vec![];
    full_tree(13, 1, 2, &mut body);
    let mut rules = vec![];
    let mut bookings = vec![];
    for i in 0..64u16 {
        let mut pattern = vec![0];
        // the last three leaves become an "or" of two wildcards, twice, and a not absurd
        let leaves = body.iter().filter(|w| **w == 2).count();
        let mut seen = 0;
        for w in &body {
            seen += (*w == 2) as usize;
            match (*w == 2, leaves - seen) {
                (true, 0 | 1) => pattern.extend([257, 258, 258]),
                (true, 2) => pattern.extend([260, 259]),
                _ => pattern.push(*w),
            }
        }
        pattern.push(3 + i);
        assert_eq!(pattern.len(), 60);
        rules.push((1 + i, i, pattern));
        bookings.push([vec![0], body.clone(), vec![3 + i]].concat());
    }
    Case { name: "heaviest", signature, rules, bookings }
}

/// 64 rules of 60 words and four rows each: a rule excludes a head of its own at each of 21 places, at the first one of four, and
/// names its own at the last. The tree is too large.
fn own_exclusions() -> Case {
    const GROUPS: u16 = 7;
    let sixty_four: Vec<&[u16]> = vec![&[]; 64];
    // kind 0: 0 (three places and the next), 1 (the last place), 2; kind 1: 3 to 66
    let signature = signature(&[&[&[1, 1, 1, 0], &[1], &[]], &sixty_four]);
    let head = |n: u16| 3 + n % 64;
    let chain = |at: &dyn Fn(u16) -> Vec<u16>, last: u16| -> Vec<u16> {
        let group = |g: u16| [vec![0], at(3 * g), at(3 * g + 1), at(3 * g + 2)].concat();
        (0..GROUPS).flat_map(group).chain([1, last]).collect()
    };
    let mut rules = vec![];
    let mut bookings = vec![];
    for i in 0..64 {
        let one_of_four = [vec![257; 3], (0..4).flat_map(|j| [260, head(i + 16 * j)]).collect()].concat();
        let pattern = chain(&|place| if place == 0 { one_of_four.clone() } else { vec![260, head(i + place)] }, head(i));
        assert_eq!(pattern.len(), 60);
        rules.push((1 + i, i, pattern));
        bookings.push(chain(&|place| vec![head(i + place + 1)], head(i)));
    }
    Case { name: "64 rules, own exclusions", signature, rules, bookings }
}

/// The deepest path that was found: 64 rules of 63 words, each with a chain of its own. The tree is too large.
fn deepest() -> Case {
    let sixty_four: Vec<&[u16]> = vec![&[]; 64];
    let signature = signature(&[
        &[&[1, 6]],
        &[&[2, 2, 2, 2], &[]],
        &[&[3, 3, 3, 3], &[]],
        &[&[4, 4, 4, 4], &[]],
        &[&[4, 5, 5, 5], &[]],
        &[&[], &[]],
        &sixty_four,
    ]);
    let mut rules = vec![];
    for i in 0..64u16 {
        let mut part = [vec![7u16; 12], vec![258], vec![9u16; 36]].concat();
        for (level, at) in [(2, i % 4), (1, i / 4 % 4), (0, i / 16)] {
            let mut around = vec![1 + 2 * level];
            for a in 0..4 {
                if a == at {
                    around.extend(&part);
                } else {
                    around.push(258);
                }
            }
            part = around;
        }
        rules.push((1 + i, i, [vec![0], part, vec![11 + i]].concat()));
    }
    Case { name: "deepest", signature, rules, bookings: vec![] }
}

pub fn cases() -> Vec<Case> {
    vec![grid("2 rules", 2), grid("10 rules", 10), grid("64 rules", 64), own_exclusions(), heaviest(), deepest()]
}

/// Boxes of ten ranges, made by cutting them one after the other; of each, two places that are whole are an "or" of two
/// wildcards, so that 64 rules weigh 256.
fn boxes(name: &'static str, n: usize) -> Case {
    // 0, 2 and 4 have three levels and the next kind, 6 has one level; 1, 3, 5 and 7 have no arguments; kind 4 has the levels
    let signature = vec![9, 0, 4, 4, 4, 4, 1, 0, 0, 1, 4, 4, 4, 4, 2, 1, 0, 2, 4, 4, 4, 4, 3, 2, 0, 3, 1, 4, 3, 0, 4, 5];
    let mut seed = 1u32;
    let mut below = |n: usize| {
        seed = seed.wrapping_mul(1664525).wrapping_add(1013904223);
        (seed >> 16) as usize % n
    };
    let mut boxes = vec![[(0, 100); 10]];
    while boxes.len() < n {
        let (i, place) = (below(boxes.len()), below(10));
        let (low, high) = boxes[i][place];
        if low < high {
            let cut = low + below((high - low) as usize) as u16;
            let mut upper = boxes[i];
            upper[place].0 = cut + 1;
            boxes[i][place].1 = cut;
            boxes.push(upper);
        }
    }
    let mut rules = vec![];
    let mut bookings = vec![];
    for (i, ranges) in boxes.iter().enumerate() {
        let (mut pattern, mut booking, mut twice) = (vec![], vec![], 2);
        for (place, (low, high)) in ranges.iter().enumerate() {
            if place % 3 == 0 {
                pattern.push(place as u16 / 3 * 2);
                booking.push(place as u16 / 3 * 2);
            }
            match (low, high) {
                (0, 100) if twice > 0 => {
                    twice -= 1;
                    pattern.extend([257, 258, 258]);
                }
                (0, 100) => pattern.push(258),
                _ => pattern.extend([280, *low, *high]),
            }
            booking.push(1000 + low);
        }
        rules.push((1 + i as u16, 1, pattern));
        bookings.push(booking);
    }
    Case { name, signature, rules, bookings }
}

/// Tables with levels, which neither the prototype nor the first-match list knows.
pub fn with_levels() -> Vec<Case> {
    vec![boxes("10 rules, levels", 10), boxes("64 rules, levels", 64)]
}

/// Each rule takes six of seven heads at a place, where all places before it have the seventh; the last takes bookings without
/// all 40 places. Only the booking with the seventh head at each is left: 254 rows, which a search leaves one after the other.
pub fn stairs() -> Case {
    const PLACES: usize = 40;
    // of kind k, 2 k has three places and the next kind, the last of them, 26, one place; 2 k + 1 has none; heads 28 to 34
    let mut signature = vec![35];
    (0..13).for_each(|k| signature.extend([k, 4, 14, 14, 14, k + 1, k, 0]));
    signature.extend([13, 1, 14, 13, 0]);
    signature.extend([14, 0].repeat(7));
    let six = [vec![257; 5], (28..34).collect()].concat();
    let chain = |at: &dyn Fn(usize) -> Vec<u16>| -> Vec<u16> {
        (0..PLACES).flat_map(|i| [if i % 3 == 0 { vec![i as u16 / 3 * 2] } else { vec![] }, at(i)].concat()).collect()
    };
    let (mut rules, mut bookings) = (vec![], vec![]);
    for step in 0..PLACES {
        let pattern = chain(&|i| if i < step { vec![34] } else if i == step { six.clone() } else { vec![258] });
        rules.push((1 + step as u16, 1, pattern));
        bookings.push(chain(&|i| vec![if i < step { 34 } else { 28 }]));
    }
    rules.push((41, 1, [vec![260], chain(&|_| vec![258])].concat()));
    bookings.push(vec![1]);
    Case { name: "stairs", signature, rules, bookings }
}

/// The least booking of a signature.
pub fn least(signature: &[u16]) -> Vec<u16> {
    reference::signature::Signature::read(signature).unwrap().least_value(0).words()
}

/// A value of n words: 0 has one argument, 1 two, 2 none.
fn exact(n: usize) -> Vec<u16> {
    match n {
        1 => vec![2],
        2 => vec![0, 2],
        _ => [vec![1], exact((n - 1) / 2), exact(n - 1 - (n - 1) / 2)].concat(),
    }
}

/// One rule that takes every booking, and a booking of 4,096 words, of a list with two elements a cell.
pub fn long() -> Case {
    Case {
        name: "4,096 words",
        signature: vec![3, 0, 1, 0, 0, 2, 0, 0, 0, 0],
        rules: vec![(1, 1, vec![257, 1, 261, 258, 0, 261])],
        bookings: vec![exact(4096)],
    }
}

/// The 20 constructors of the grid with a booking of 4,096 words: its energy has parts of parts.
pub fn long_grid() -> Case {
    fn energy(n: usize, out: &mut Vec<u16>) {
        if n == 1 {
            return out.push(18 + (out.len() % 3 == 0) as u16);
        }
        out.push(17);
        let left = (n - 1) / 4 * 2 + 1;
        energy(left, out);
        energy(n - 1 - left, out);
    }
    let mut booking = vec![0, 3, 12];
    energy(4093, &mut booking);
    Case { name: "20 constructors, 4,096 words", bookings: vec![booking], ..grid("", 1) }
}

/// 256 constructors of four kinds, by turns without arguments, with one and with two of the next kinds; bookings that have many of
/// them.
fn wide(name: &'static str, bookings: usize, words: usize) -> Case {
    let mut signature = vec![256];
    for c in 0..256u16 {
        let kind = c / 64;
        signature.extend([kind, c % 3]);
        signature.extend((0..c % 3).map(|i| (kind + 1 + i) % 4));
    }
    // the constructors of a kind with so many arguments, by turns
    let mut turn = 0;
    let mut head = |kind: u16, arguments: u16| {
        turn += 1;
        let all: Vec<u16> = (64 * kind..64 * kind + 64).filter(|c| c % 3 == arguments).collect();
        all[turn % all.len()]
    };
    fn value(kind: u16, n: usize, head: &mut impl FnMut(u16, u16) -> u16, out: &mut Vec<u16>) {
        let arguments = (n - 1).min(2);
        out.push(head(kind, arguments as u16));
        match arguments {
            0 => {}
            1 => value((kind + 1) % 4, n - 1, head, out),
            _ => {
                value((kind + 1) % 4, (n - 1) / 2, head, out);
                value((kind + 2) % 4, n - 1 - (n - 1) / 2, head, out);
            }
        }
    }
    let mut booking = || {
        let mut out = vec![];
        value(0, words, &mut head, &mut out);
        out
    };
    Case { name, signature, rules: vec![(1, 1, vec![258])], bookings: (0..bookings).map(|_| booking()).collect() }
}

/// A booking of 4,096 words that has all 256 constructors.
pub fn long_wide() -> Case {
    wide("256 constructors, 4,096 words", 1, 4096)
}

/// Rules that are one chain of so many words each, of two letters and an end; a booking for each.
pub fn letters(name: &'static str, rules: u16, words: usize) -> Case {
    let chain = |i: u16| [(0..words - 1).map(|j| if j < 6 { i >> j & 1 } else { 0 }).collect(), vec![2]].concat();
    let bookings = (0..rules).map(chain).collect();
    let rules = (0..rules).map(|i| (1 + i, i, chain(i))).collect();
    // 0 and 1 have one argument, 2 has none
    Case { name, signature: vec![3, 0, 1, 0, 0, 1, 0, 0, 0], rules, bookings }
}

/// A booking of 4,096 words that begins with 254 nested ones: each has a value due until the words behind it are read.
pub fn long_deep() -> Case {
    let sides = (0..254).flat_map(|i| exact(if i < 20 { 1 } else if i < 97 { 17 } else { 16 }));
    let booking: Vec<u16> = [1; 254].into_iter().chain([2]).chain(sides).collect();
    assert_eq!(booking.len(), 4096);
    Case { name: "3 constructors, 4,096 words, 255 deep", bookings: vec![booking], ..long() }
}

/// Logs that are measured: a short one, and full ones, of one rule and of all, in an order that does not rise.
pub fn logs() -> Vec<(&'static str, Vec<u16>)> {
    let mixed = |n: usize| (0..n).map(|i| (i * 617 % 1000) as u16).collect();
    vec![("10 entries", mixed(10)), ("4,096 entries, one rule", vec![7; 4096]), ("4,096 entries, all rules", mixed(4096))]
}

/// Tables under which open charges are answered again: with short bookings, and with bookings of 61 words.
pub fn plugged() -> Vec<Case> {
    vec![grid("64 rules", 64), letters("48 chains", 48, ROOM), wide("256 constructors", RECORDS, ROOM)]
}

/// The list of open charges with these bookings, as far as they fit; none was answered before.
pub fn charges<'a>(bookings: impl IntoIterator<Item = &'a Vec<u16>>) -> Vec<u16> {
    let fit = bookings.into_iter().filter(|b| b.len() <= ROOM).take(RECORDS);
    list_of(&fit.map(|b| (0, 0, b.clone())).collect::<Vec<_>>())
}
