//! 02, job 2: the check of a booking word by word, by what each word of the state means.
use crate::signature::Signature;

/// The words of a state, and where in it the parts begin.
pub const STATE: usize = 835;
const NUMBER: usize = 0;
const READ: usize = 1;
const OPEN: usize = 2;
const KINDS: usize = 3;
const ROWS: usize = 67;

/// The state before the first word.
pub fn begin(words: &[u16]) -> Vec<u16> {
    let mut state = vec![0; STATE];
    let Some(sig) = Signature::read(words) else {
        state[NUMBER] = 1;
        return state;
    };
    for kind in 0..sig.kinds {
        let heads = sig.heads(kind);
        state[KINDS + 2 * kind] = *heads.start();
        state[KINDS + 2 * kind + 1] = heads.count() as u16;
    }
    let mut at = 1;
    for (c, constructor) in sig.constructors.iter().enumerate() {
        state[ROWS + c] = at;
        at += 2 + constructor.arguments.len() as u16;
    }
    state
}

/// The next word: 0, or 1 or 13 once it is certain. Any words may be a state, and any a signature.
pub fn step(sig: &[u16], state: &mut [u16], word: u16) -> u16 {
    if state[NUMBER] == 0 {
        match opened(sig, state, word) {
            Some(open) => {
                state[READ] += 1;
                state[OPEN] = open.len() as u16;
                state[STATE - open.len()..].copy_from_slice(&open);
            }
            None => state[NUMBER] = 13,
        }
    }
    match state[NUMBER] {
        0 => 0,
        1 => 1,
        _ => 13,
    }
}

/// The number that the words so far have.
pub fn end(state: &[u16]) -> u16 {
    match (state[NUMBER], state[READ], state[OPEN]) {
        (1, _, _) => 1,
        (0, 1.., 0) => 0,
        _ => 13,
    }
}

/// A booking stepped to its end: the numbers that its first 0, 1, 2 .. words have, and how many words were read.
pub fn through(sig: &[u16], booking: &[u16]) -> (Vec<u16>, u16) {
    let mut state = begin(sig);
    let mut numbers = vec![end(&state)];
    for word in booking {
        step(sig, &mut state, *word);
        numbers.push(end(&state));
    }
    (numbers, state[READ])
}

/// The open values after a word; none if it may not stand there.
fn opened(sig: &[u16], state: &[u16], word: u16) -> Option<Vec<u16>> {
    if sig.len() > 1537 || state[READ] >= 4096 || state[OPEN] > 510 {
        return None;
    }
    let (kind, deep, rest) = due(sig, state)?;
    if deep == 0 || kind >= 32 {
        return None;
    }
    let (first, count) = (state[KINDS + 2 * kind], state[KINDS + 2 * kind + 1]);
    if word < first || word - first >= count {
        return None;
    }
    if word >= 1000 {
        return Some(rest);
    }
    if word >= 256 {
        return None;
    }
    let row = state[ROWS + word as usize];
    match *sig.get(row as usize + 1)? {
        0 => Some(rest),
        n @ 1..=4 => Some([vec![row + 2, 256 * n + deep - 1], rest].concat()),
        _ => None,
    }
}

/// The kind of the value that is due, how deep it may be nested, and the values that are open behind it.
fn due(sig: &[u16], state: &[u16]) -> Option<(usize, u16, Vec<u16>)> {
    if state[READ] == 0 {
        return Some((0, 256, vec![]));
    }
    let open = &state[STATE - state[OPEN] as usize..];
    if open.len() < 2 || open[1] < 256 {
        return None;
    }
    let kind = *sig.get(open[0] as usize)?;
    let mut rest = open[2..].to_vec();
    if open[1] >= 512 {
        rest.splice(0..0, [open[0] + 1, open[1] - 256]);
    }
    Some((kind as usize, open[1] % 256, rest))
}
