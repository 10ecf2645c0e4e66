pub struct Tallied { pub refusal: u16, pub total: u16, pub counts: [u16; 1000] }

fn refused() -> Tallied {
    Tallied { refusal: 19, total: 0, counts: [0; 1000] }
}

pub fn tally(log: &[u16]) -> Tallied {
    if log.len() > 4096 { return refused(); }
    let mut counts = [0u16; 1000];
    let mut i = 0;
    while i < log.len() {
        let n = log[i] as usize;
        if n > 999 { return refused(); }
        counts[n] += 1;
        i += 1;
    }
    Tallied { refusal: 0, total: log.len() as u16, counts }
}
