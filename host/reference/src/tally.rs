//! 02, job 5: the tally of a log, and the program that prints it.
use crate::text::{number, refused};

/// The number; each rule in the log with how often it stands there, rising; the number of entries.
pub type Tallied = (u16, Vec<(u16, u16)>, u16);

pub fn tally(log: &[u16]) -> Tallied {
    if log.iter().any(|rule| *rule > 999) || log.len() > 4096 {
        return (19, vec![], 0);
    }
    // equal entries stand side by side
    let mut sorted = log.to_vec();
    sorted.sort();
    let lines: Vec<(u16, u16)> = sorted.chunk_by(|a, b| a == b).map(|same| (same[0], same.len() as u16)).collect();
    let total = log.len() as u16;
    assert_eq!(lines.iter().map(|(_, count)| count).sum::<u16>(), total, "the total is the sum of the printed counts");
    (0, lines, total)
}

/// What the program prints.
pub fn printed(bytes: &[u8]) -> String {
    let Some(log) = read(bytes) else {
        return refused(17);
    };
    let (number, lines, total) = tally(&log);
    if number != 0 {
        return refused(number);
    }
    let lines: String = lines.iter().map(|(rule, count)| format!("rule={rule} count={count}\n")).collect();
    format!("{lines}total={total}\n")
}

/// None where the line format is broken.
fn read(bytes: &[u8]) -> Option<Vec<u16>> {
    if bytes.len() > 32768 {
        return None;
    }
    // a newline within the list is part of no number
    match bytes.strip_suffix(b"\n")?.strip_prefix(b"log=")? {
        [] => Some(vec![]),
        list => list.split(|b| *b == b' ').map(number).collect(),
    }
}
