//! A search for patterns that go deeper than those of `deep`: random nests of at most 64 words, and changes to the best of them.
use crate::calls::Lent;
use crate::deep::ONE_KIND;
use crate::stack::peak;
use reference::random::Random;
use std::hint::black_box;

/// A word with its number of parts, of which one nests and the others are one word.
#[derive(Clone, Copy)]
struct Level {
    word: u16,
    parts: usize,
    nests: usize,
    other: u16,
}

type Nest = (Vec<Level>, u16);

const WORDS: [(u16, usize); 6] = [(1, 1), (260, 1), (2, 2), (3, 4), (256, 2), (257, 2)];

fn level(r: &mut Random) -> Level {
    let (word, parts) = *r.pick(&WORDS);
    Level { word, parts, nests: r.below(parts), other: *r.pick(&[0, 258, 259, 261, 262]) }
}

fn last(r: &mut Random) -> u16 {
    *r.pick(&[0, 258, 259, 261])
}

/// Cut to 64 words.
fn cut((mut levels, last): Nest) -> Nest {
    while 1 + levels.iter().map(|l| l.parts).sum::<usize>() > 64 {
        levels.pop();
    }
    (levels, last)
}

fn words((levels, last): &Nest) -> Vec<u16> {
    let mut out = vec![];
    for l in levels {
        out.push(l.word);
        out.extend(vec![l.other; l.nests]);
    }
    out.push(*last);
    for l in levels.iter().rev() {
        out.extend(vec![l.other; l.parts - 1 - l.nests]);
    }
    out
}

fn random(r: &mut Random) -> Nest {
    let same = level(r);
    let one = r.once_in(2);
    let levels = (0..64).map(|_| if one { same } else { level(r) }).collect();
    cut((levels, last(r)))
}

fn changed(r: &mut Random, (levels, end): &Nest) -> Nest {
    let (mut levels, mut end) = (levels.clone(), *end);
    for _ in 0..r.between(1, 6) {
        let at = r.below(levels.len().max(1));
        match r.below(4) {
            0 if levels.len() > 1 => drop(levels.remove(at)),
            1 if !levels.is_empty() => {
                let l = levels[at];
                (0..r.between(1, 20)).for_each(|_| levels.insert(at, l));
            }
            2 => end = last(r),
            _ => levels.insert(at.min(levels.len()), level(r)),
        }
    }
    cut((levels, end))
}

/// What the call takes with the pattern entered, or held where it can be.
fn bytes(call: &str, pattern: &[u16]) -> usize {
    let mut l = Lent { number: 1, pattern: pattern.to_vec(), ..Lent::empty(&ONE_KIND) };
    if call == "enter" {
        let first = peak(|| { black_box(l.make("enter")); });
        l.number = 2;
        return first.max(peak(|| { black_box(l.make("enter")); }));
    }
    if l.make("enter") != 0 {
        return 0;
    }
    l.booking = [vec![1; 255], vec![0]].concat();
    peak(|| { black_box(l.make(call)); })
}

/// The deepest pattern of so many, and what the call takes with it.
pub fn deepest(call: &str, rounds: usize) -> (usize, Vec<u16>) {
    let mut r = Random::new(1);
    let mut best: Vec<(usize, Nest)> = vec![];
    for _ in 0..rounds {
        let nest = if best.len() < 20 || r.once_in(10) {
            random(&mut r)
        } else {
            let of = r.pick(&best).1.clone();
            changed(&mut r, &of)
        };
        best.push((bytes(call, &words(&nest)), nest));
        best.sort_by_key(|(b, _)| std::cmp::Reverse(*b));
        best.truncate(20);
    }
    (best[0].0, words(&best[0].1))
}
