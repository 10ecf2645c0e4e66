//! 01, the text program: from bytes to bytes.
use crate::calls::{Answer, Model, TABLE, WITNESS};

struct Text {
    signature: Vec<u16>,
    /// number, plan, pattern
    rules: Vec<(u16, u16, Vec<u16>)>,
    booking: Vec<u16>,
}

/// What the program prints.
pub fn printed(bytes: &[u8]) -> String {
    let Some(text) = read(bytes) else {
        return refused(17);
    };
    let mut model = Model::default();
    let (_, mut table) = model.empty(&[0; TABLE]);
    // 1 comes before the first rule, also where there is none
    match model.part(&text.signature, &[], 0).0 {
        1 => return refused(1),
        _ => {}
    }
    for (number, plan, pattern) in &text.rules {
        let (n, _, after) = model.enter(&text.signature, *number, *plan, pattern, &table, WITNESS);
        if n != 0 {
            return refused(n);
        }
        table = after;
    }
    answered(model.decide(&text.signature, &table, &text.booking))
}

pub(crate) fn refused(n: u16) -> String {
    format!("refused={n}\n")
}

fn answered((number, rule, plan, places): Answer) -> String {
    if number != 0 {
        return refused(number);
    }
    let bound: Vec<String> = (0..16).filter(|x| places[*x] != 65535).map(|x| format!("{x}:{}", places[x])).collect();
    format!("rule={rule}\nplan={plan}\nbind={}\n", bound.join(" "))
}

/// None where the line format is broken.
fn read(bytes: &[u8]) -> Option<Text> {
    if bytes.len() > 32768 {
        return None;
    }
    // every line ends in a newline
    let lines = bytes.strip_suffix(b"\n")?;
    let mut lines = lines.split(|b| *b == b'\n');
    let signature = list(lines.next()?, b"sig=")?;
    let mut rules = vec![];
    loop {
        let line = lines.next()?;
        if line.starts_with(b"book=") {
            let booking = list(line, b"book=")?;
            return if lines.next().is_none() { Some(Text { signature, rules, booking }) } else { None };
        }
        rules.push((one(line, b"rule=")?, one(lines.next()?, b"plan=")?, list(lines.next()?, b"pat=")?));
    }
}

fn list(line: &[u8], key: &[u8]) -> Option<Vec<u16>> {
    let numbers: Option<Vec<u16>> = line.strip_prefix(key)?.split(|b| *b == b' ').map(number).collect();
    numbers.filter(|l| l.len() <= 4096)
}

fn one(line: &[u8], key: &[u8]) -> Option<u16> {
    match list(line, key)?[..] {
        [n] => Some(n),
        _ => None,
    }
}

/// 1 to 5 digits, no leading zero, at most 65,535.
pub(crate) fn number(digits: &[u8]) -> Option<u16> {
    let plain = (1..=5).contains(&digits.len()) && digits.iter().all(|d| d.is_ascii_digit());
    if !plain || (digits[0] == b'0' && digits.len() > 1) {
        return None;
    }
    std::str::from_utf8(digits).unwrap().parse().ok()
}
