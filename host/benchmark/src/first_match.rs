//! The same rules as a list in which the first that fits wins: no check that two rules are apart, no tree.
use prototype::{booking, decide, run, sig};

/// The answer of the first rule of the list that fits. The words of a table are such a list.
pub fn answer(signature: &[u16], rules: &[u16], words: &[u16]) -> run::Answer {
    let mut t = [0u16; sig::SIGW];
    if !sig::decode(signature, &mut t) {
        return run::refused(1);
    }
    if !booking::lawful(&t, words) {
        return run::refused(13);
    }
    decide::answer(&t, rules, words)
}

/// A rule put in where its number is free and the pattern is not malformed.
pub fn enter(signature: &[u16], rules: &mut [u16], number: u16, plan: u16, pattern: &[u16]) -> u16 {
    let mut t = [0u16; sig::SIGW];
    if !sig::decode(signature, &mut t) {
        return 1;
    }
    if !prototype::pattern::formed(&t, pattern) {
        return 7;
    }
    let mut at = 2;
    let mut place = 0;
    for _ in 0..rules[0] {
        if rules[at] == number {
            return 5;
        }
        if rules[at] < number {
            place = at + 3 + rules[at + 2] as usize;
        }
        at += 3 + rules[at + 2] as usize;
    }
    let place = place.max(2);
    let n = 3 + pattern.len();
    rules.copy_within(place..at, place + n);
    rules[place..place + 3].copy_from_slice(&[number, plan, pattern.len() as u16]);
    rules[place + 3..place + n].copy_from_slice(pattern);
    rules[0] += 1;
    0
}

pub fn withdraw(rules: &mut [u16], number: u16) -> u16 {
    let (mut at, mut found) = (2, None);
    for _ in 0..rules[0] {
        let n = 3 + rules[at + 2] as usize;
        if rules[at] == number {
            found = Some((at, n));
        }
        at += n;
    }
    let Some((place, n)) = found else {
        return 6;
    };
    rules.copy_within(place + n..at, place);
    rules[at - n..at].fill(0);
    rules[0] -= 1;
    0
}
