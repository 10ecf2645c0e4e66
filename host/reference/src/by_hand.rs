//! The cases that the gate's programs `parts` and `patterns` have in their code, with the lines that they must print.
use crate::calls::Model;
use crate::pattern;
use crate::rows::Side;
use crate::signature::Signature;

const T: [u16; 15] = [6, 0, 2, 1, 2, 1, 0, 1, 0, 1, 0, 2, 0, 2, 0];

// ---- parts

/// number, signature, booking, place
type Part = (usize, Vec<u16>, Vec<u16>, usize);

/// Constructors without arguments, so many of each kind.
fn plain(count: u16, each: u16) -> Vec<u16> {
    let mut w = vec![count];
    (0..count).for_each(|c| w.extend([c / each, 0]));
    w
}

fn parts() -> Vec<Part> {
    let mut all: Vec<Part> = vec![];
    let mut t = |n, booking: &[u16], place| all.push((n, T.to_vec(), booking.to_vec(), place));
    t(1, &[0, 1, 5], 0);
    t(2, &[0, 1, 5], 1);
    t(3, &[0, 1, 5], 2);
    t(4, &[0, 1, 5], 3);
    t(5, &[0, 1, 5], 65535);
    t(6, &[0, 3, 4], 0);
    t(10, &[], 0);
    t(11, &[0, 1], 0);
    t(12, &[0], 0);
    t(13, &[0, 1, 5, 5], 0);
    t(14, &[1], 0);
    t(15, &[0, 5, 1], 0);
    t(16, &[0, 0, 5], 0);
    t(17, &[0, 1, 6], 0);
    t(18, &[0, 1, 65535], 0);
    t(19, &[0, 1, 5, 5], 65535);
    let mut of = |n, signature: &[u16], booking: &[u16], place| all.push((n, signature.to_vec(), booking.to_vec(), place));
    of(20, &T[..14], &[0, 1, 5, 5], 65535);
    let changed = |i: usize, w: u16| {
        let mut t = T;
        t[i] = w;
        t
    };
    let signatures = [vec![], vec![0], T[..14].to_vec(), T[..13].to_vec(), [&T[..], &[0]].concat()];
    for (i, s) in signatures.iter().enumerate() {
        of(30 + i, s, &[0, 1, 5], 0);
    }
    of(35, &changed(0, 7), &[0, 1, 5], 0);
    of(36, &changed(0, 5), &[0, 1, 5], 0);
    of(37, &changed(4, 3), &[0, 1, 5], 0);
    of(38, &[2, 0, 5, 0, 0, 0, 0, 0, 0, 0], &[1], 0);
    of(39, &[2, 0, 4, 0, 0, 0, 0, 0, 0], &[0, 1, 1, 1, 1], 0);
    of(40, &[1, 1, 0], &[0], 0);
    of(41, &[2, 0, 0, 2, 0], &[0], 0);
    of(42, &[3, 0, 0, 1, 0, 0, 0], &[0], 0);
    of(43, &[1, 0, 1, 0], &[0], 0);
    of(44, &[3, 0, 2, 1, 1, 1, 2, 2, 2, 2, 0], &[0, 1, 2, 2, 1, 2, 2], 0);
    of(45, &[3, 0, 3, 1, 2, 2, 1, 2, 2, 2, 2, 0], &[0, 1, 2, 2, 2, 2], 1);
    let levels = [4, 0, 2, 1, 2, 1, 0, 1, 0, 2, 5];
    let bookings = [[0, 1, 1037], [0, 1, 1000], [0, 2, 1100], [0, 1, 1101], [0, 1, 999], [0, 1, 3], [0, 1037, 1037], [0, 1, 1]];
    for (i, booking) in bookings.iter().enumerate() {
        of(80 + i, &levels, booking, if i == 0 || i == 2 { 2 } else { 0 });
    }
    of(88, &[1, 0, 5], &[1000], 0);
    of(89, &[1, 0, 5], &[0], 0);
    of(90, &[1, 0, 5], &[1000, 1000], 0);
    let rows = [&[3, 0, 1, 1, 1, 5, 1, 0][..], &[3, 0, 1, 1, 1, 0, 1, 5], &[3, 0, 1, 1, 1, 5, 1, 5], &[2, 0, 1, 1, 1, 6], &[2, 0, 1, 1, 1, 5, 0]];
    for (i, signature) in rows.iter().enumerate() {
        of(91 + i, signature, &[0, 1000], 0);
    }
    of(96, &[3, 0, 2, 1, 2, 1, 5, 2, 5], &[0, 1000, 1001], 2);
    of(97, &[3, 0, 3, 1, 1, 2, 1, 1, 2, 2, 5], &[0, 1, 1000, 1, 1000, 1000], 0);
    of(98, &[3, 0, 3, 1, 1, 1, 1, 1, 2, 2, 5], &[0, 1, 1000, 1, 1000, 1, 1000], 0);
    let counted = [(256, 64, 63), (256, 64, 64), (257, 64, 63), (64, 64, 63), (65, 65, 63), (32, 1, 0), (33, 1, 0)];
    for (i, (count, each, word)) in counted.into_iter().enumerate() {
        of(50 + i, &plain(count, each), &[word], 0);
    }
    // one kind: 0 has four arguments, 1 none, 2 one
    let s = [3, 0, 4, 0, 0, 0, 0, 0, 0, 0, 1, 0];
    let nested = [(2, 255, 1, 0), (2, 255, 1, 255), (2, 256, 1, 0), (0, 255, 766, 0), (0, 255, 766, 253), (0, 256, 769, 0)];
    for (i, (word, many, ones, place)) in nested.into_iter().enumerate() {
        of(60 + i, &s, &[vec![word; many], vec![1; ones]].concat(), place);
    }
    for (i, (twos, place)) in [(3, 0), (3, 4092), (4, 0)].into_iter().enumerate() {
        let runs = [vec![0; 31], vec![1; 93]].concat().repeat(33);
        of(70 + i, &s, &[runs, vec![2; twos], vec![1]].concat(), place);
    }
    all
}

/// The lines of `parts`.
pub fn part_lines() -> String {
    let mut model = Model::default();
    let mut out = String::new();
    for (n, signature, booking, place) in parts() {
        let checked = match Signature::read(&signature) {
            None => "no",
            Some(s) if s.read_booking(&booking).is_some() => "yes yes",
            Some(_) => "yes no",
        };
        let (number, part) = model.part(&signature, &booking, place);
        let shown: String = part.iter().take(8).map(|w| format!(" {w}")).collect();
        let more = if part.len() > 8 { " .." } else { "" };
        out += &format!("case {n}: {checked} {number}, {}:{shown}{more}\n", part.len());
    }
    out
}

// ---- patterns

/// An "or" of so many wildcards.
fn ors(n: usize) -> Vec<u16> {
    [[257, 258].repeat(n - 1), vec![258]].concat()
}

fn patterns() -> Vec<Vec<u16>> {
    let short: [&[u16]; 16] = [
        &[0, 1, 261],
        &[0, 260, 1, 5],
        &[0, 258, 4],
        &[260, 260, 261],
        &[260, 261],
        &[257, 261, 261],
        &[256, 261, 261],
        &[257, 261, 258],
        &[260, 0, 261, 258],
        &[260, 0, 260, 261, 258],
        &[0, 258, 260, 260, 262],
        &[0, 256, 260, 1, 256, 260, 2, 260, 3, 258],
        &[0, 257, 1, 2, 258],
        &[0, 257, 256, 1, 261, 256, 2, 261, 258],
        &[256, 258, 259],
        &[276],
    ];
    let mut all: Vec<Vec<u16>> = short.iter().map(|p| p.to_vec()).collect();
    all.push([vec![256], ors(8), ors(8)].concat());
    all.push([vec![256], ors(5), ors(13)].concat());
    let malformed: [&[u16]; 8] = [&[], &[277], &[256, 258], &[0, 1], &[258, 258], &[0, 5, 258], &[1], &[6]];
    all.extend(malformed.iter().map(|p| p.to_vec()));
    all.extend([ors(32), ors(33)]);
    all
}

/// The patterns with levels, as the program has them in its data: of each its count of words, then those.
fn level_patterns() -> Vec<Vec<u16>> {
    let text = include_str!("../../../crates/patterns/data/levels.txt");
    let said = text.lines().map(|l| l.split('#').next().unwrap());
    let mut words = said.flat_map(|l| l.split_whitespace()).map(|w| w.parse::<u16>().unwrap());
    let mut all = vec![];
    while let Some(n) = words.next() {
        all.push(words.by_ref().take(n as usize).collect());
    }
    all
}

/// The lines of `patterns`: 7, 18, 8, 9 or 0, and then each of the bookings. Ambiguity is not asked.
pub fn pattern_lines() -> String {
    let levels = [2, 0, 1, 1, 1, 5];
    lines(&T, patterns(), [&[0, 1, 5], &[0, 2, 5], &[0, 3, 4]]) + &lines(&levels, level_patterns(), [&[0, 1000], &[0, 1006], &[0, 1100]])
}

fn lines(signature: &[u16], patterns: Vec<Vec<u16>>, bookings: [&[u16]; 3]) -> String {
    let sig = Signature::read(signature).unwrap();
    let mut out = String::new();
    for words in patterns {
        let line = match pattern::read(&sig, &words) {
            None => "7".into(),
            Some(p) if p.wrong_range() => "18".into(),
            Some(p) if !p.linear_plus() => "8".into(),
            Some(p) if p.too_heavy(Side::Plus) => "9".into(),
            Some(p) => {
                let taken = bookings.map(|b| match p.fits_with(&sig.read_booking(b).unwrap(), 0).first() {
                    None => " no".into(),
                    Some(bound) => " yes".to_string() + &bound.iter().map(|(x, place)| format!(" {x}:{place}")).collect::<String>(),
                });
                format!("0{}", taken.concat())
            }
        };
        out += &(line + "\n");
    }
    out
}
