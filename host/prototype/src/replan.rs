use crate::sig::*;
use crate::run::*;

pub struct Replanned { pub refusal: u16, pub changed: u16 }

fn stays(n: u16) -> Replanned {
    Replanned { refusal: n, changed: 0 }
}

// Whether the booking in a record of 64 words has 1 to 61 words, and zeros follow it.
fn is_record(r: &[u16]) -> bool {
    let n = r[2] as usize;
    if n < 1 || n > 61 { return false; }
    let mut i = 3 + n;
    while i < 64 {
        if r[i] != 0 { return false; }
        i += 1;
    }
    true
}

fn well_formed(charges: &[u16]) -> bool {
    if charges.len() > 48 * 64 || charges.len() % 64 != 0 { return false; }
    let mut at = 0;
    while at < charges.len() {
        if !is_record(&charges[at..at + 64]) { return false; }
        at += 64;
    }
    true
}

pub fn replan(sig: &[u16], tree: &[u16], charges: &mut [u16]) -> Replanned {
    let mut t = [0u16; SIGW];
    if !decode(sig, &mut t) { return stays(1); }
    if !well_formed(charges) { return stays(20); }
    let n = charges.len() / 64;
    let mut answers = [(0u16, 0u16); 48];
    let mut i = 0;
    while i < n {
        let r = &charges[64 * i..64 * i + 64];
        let a = run_decoded(&t, tree, &r[3..3 + r[2] as usize]);
        if a.refusal != 0 { return stays(a.refusal); }
        answers[i] = (a.rule, a.plan);
        i += 1;
    }
    let mut changed = 0;
    i = 0;
    while i < n {
        let (rule, plan) = answers[i];
        if charges[64 * i + 1] != plan { changed += 1; }
        charges[64 * i] = rule;
        charges[64 * i + 1] = plan;
        i += 1;
    }
    Replanned { refusal: 0, changed }
}
