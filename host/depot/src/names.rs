//! Readable names for constructors, and rules and bookings written with them.
//!
//! A pattern: `booking(midi | solo, !yard(_), ?energy & high, 0..20)`, where `_` takes everything, `never` nothing, `?energy`
//! notes where the part stands, and `0..20` takes these levels. A booking is the same without the signs, with one level.
use bellgantlet::{Refusal, Signature, LAST_LEVEL, LEVEL};

/// The second word of a number kind's row.
const NUMBER: u16 = 5;

const RANGE: u16 = 280;

pub struct Names {
    /// For each kind its constructors: a name and the kinds of the arguments.
    constructors: Vec<(String, Vec<usize>)>,
    words: Vec<u16>,
}

/// A rule's pattern in words, and its variables' names in the order of their numbers.
#[derive(Debug)]
pub struct Written {
    pub words: Vec<u16>,
    pub variables: Vec<String>,
}

impl Names {
    /// A line for each kind: `bay: hall(slot) yard(slot) street`; of levels `charge: 0..100`. The first kind is that of bookings.
    pub fn new(lines: &[&str]) -> Names {
        let kinds: Vec<&str> = lines.iter().map(|l| l.split(':').next().unwrap().trim()).collect();
        let mut constructors = vec![];
        let mut words = vec![];
        for (k, line) in lines.iter().enumerate() {
            for c in line.split_once(':').unwrap().1.split_whitespace() {
                let (name, arguments) = c.trim_end_matches(')').split_once('(').unwrap_or((c, ""));
                let arguments: Vec<usize> = arguments
                    .split(',')
                    .filter(|a| !a.is_empty())
                    .map(|a| kinds.iter().position(|n| *n == a).expect("a kind"))
                    .collect();
                words.push(k as u16);
                words.push(if c == "0..100" { NUMBER } else { arguments.len() as u16 });
                words.extend(arguments.iter().map(|a| *a as u16));
                constructors.push((name.to_string(), arguments));
            }
        }
        words.insert(0, constructors.len() as u16);
        Names { constructors, words }
    }

    pub fn signature(&self) -> Result<Signature, Refusal> {
        Signature::new(&self.words)
    }

    pub fn pattern(&self, text: &str) -> Result<Written, String> {
        self.written(text, false)
    }

    pub fn booking(&self, text: &str) -> Result<Vec<u16>, String> {
        Ok(self.written(text, true)?.words)
    }

    fn written(&self, text: &str, booking: bool) -> Result<Written, String> {
        let spaced: String = text.chars().map(|c| if "(),|&!?".contains(c) { format!(" {c} ") } else { c.to_string() }).collect();
        let mut reader = Reader { names: self, tokens: spaced.split_whitespace().collect(), at: 0, variables: vec![], booking };
        let words = reader.either()?;
        if reader.at < reader.tokens.len() {
            return Err(format!("'{}' is left over", reader.tokens[reader.at]));
        }
        Ok(Written { words, variables: reader.variables })
    }

    /// The words of a value by names.
    pub fn show(&self, words: &[u16]) -> String {
        self.show_pattern(words, &[])
    }

    /// The words of a pattern as a planner writes them.
    pub fn show_pattern(&self, words: &[u16], variables: &[String]) -> String {
        self.show_from(words, &mut 0, variables, Within::Anything)
    }

    fn show_from(&self, words: &[u16], at: &mut usize, variables: &[String], within: Within) -> String {
        let w = words[*at];
        *at += 1;
        if w == RANGE {
            *at += 2;
            let (low, high) = (words[*at - 2], words[*at - 1]);
            return if low == high { low.to_string() } else { format!("{low}..{high}") };
        }
        let mut part = |within| self.show_from(words, at, variables, within);
        match w {
            256 => {
                let shown = format!("{} & {}", part(Within::And), part(Within::Not));
                if within > Within::And { format!("({shown})") } else { shown }
            }
            257 => {
                let shown = format!("{} | {}", part(Within::Anything), part(Within::And));
                if within > Within::Anything { format!("({shown})") } else { shown }
            }
            258 => "_".into(),
            259 => "never".into(),
            260 => format!("!{}", part(Within::Not)),
            LEVEL.. => (w - LEVEL).to_string(),
            261.. => format!("?{}", variables[w as usize - 261]),
            _ => {
                let (name, arguments) = &self.constructors[w as usize];
                let shown: Vec<String> = arguments.iter().map(|_| part(Within::Anything)).collect();
                if shown.is_empty() { name.clone() } else { format!("{name}({})", shown.join(", ")) }
            }
        }
    }
}

/// What stands around a part: the later, the tighter it binds.
#[derive(Clone, Copy, PartialEq, PartialOrd)]
enum Within {
    Anything,
    And,
    Not,
}

struct Reader<'a> {
    names: &'a Names,
    tokens: Vec<&'a str>,
    at: usize,
    variables: Vec<String>,
    /// In a booking a level stands for itself, in a pattern for the range of it.
    booking: bool,
}

impl<'a> Reader<'a> {
    fn next_is(&mut self, token: &str) -> bool {
        let is = self.tokens.get(self.at) == Some(&token);
        self.at += is as usize;
        is
    }

    fn two(&mut self, sign: &str, word: u16, part: fn(&mut Self) -> Result<Vec<u16>, String>) -> Result<Vec<u16>, String> {
        let mut words = part(self)?;
        while self.next_is(sign) {
            words = [vec![word], words, part(self)?].concat();
        }
        Ok(words)
    }

    fn either(&mut self) -> Result<Vec<u16>, String> {
        self.two("|", 257, Reader::both)
    }

    fn both(&mut self) -> Result<Vec<u16>, String> {
        self.two("&", 256, Reader::one)
    }

    fn one(&mut self) -> Result<Vec<u16>, String> {
        let token = *self.tokens.get(self.at).ok_or("the end came too early")?;
        self.at += 1;
        match token {
            "_" => Ok(vec![258]),
            "never" => Ok(vec![259]),
            "!" => Ok([vec![260], self.one()?].concat()),
            "(" => {
                let words = self.either()?;
                if self.next_is(")") { Ok(words) } else { Err("')' is missing".into()) }
            }
            "?" => self.variable(),
            levels if levels.starts_with(|c: char| c.is_ascii_digit()) => self.levels(levels),
            name => self.constructor(name),
        }
    }

    fn levels(&self, text: &str) -> Result<Vec<u16>, String> {
        let (low, high) = text.split_once("..").unwrap_or((text, text));
        let level = |t: &str| t.parse::<u16>().map_err(|_| format!("'{text}' is no level and no range"));
        match (level(low)?, level(high)?) {
            (n, m) if self.booking && n == m && n <= LAST_LEVEL => Ok(vec![LEVEL + n]),
            _ if self.booking => Err(format!("'{text}' is no level")),
            (n, m) => Ok(vec![RANGE, n, m]),
        }
    }

    fn variable(&mut self) -> Result<Vec<u16>, String> {
        let name = self.tokens.get(self.at).ok_or("a name is missing")?.to_string();
        self.at += 1;
        let i = self.variables.iter().position(|v| *v == name).unwrap_or(self.variables.len());
        if i == self.variables.len() {
            self.variables.push(name);
        }
        if i < 16 { Ok(vec![261 + i as u16]) } else { Err("over 16 variables".into()) }
    }

    fn constructor(&mut self, name: &str) -> Result<Vec<u16>, String> {
        let c = self.names.constructors.iter().position(|(n, _)| n == name).ok_or(format!("nothing is called '{name}'"))?;
        let mut words = vec![c as u16];
        for i in 0..self.names.constructors[c].1.len() {
            if !self.next_is(if i == 0 { "(" } else { "," }) {
                return Err(format!("an argument of '{name}' is missing"));
            }
            words.extend(self.either()?);
        }
        if self.names.constructors[c].1.is_empty() || self.next_is(")") { Ok(words) } else { Err("')' is missing".into()) }
    }
}

#[cfg(test)]
mod tests {
    use super::*;

    #[test]
    fn shown_as_written() {
        let names = Names::new(&["all: pair(all,all) left right of(charge)", "charge: 0..100"]);
        for text in ["of(!0..20 & 50)", "pair(left | right, _)", "!(left | right) & ?x", "(left | right) & !(left & never)", "left & (right & _)", "left | (right | _)"] {
            let written = names.pattern(text).unwrap();
            let shown = names.show_pattern(&written.words, &written.variables);
            assert_eq!(shown, text);
            assert_eq!(names.pattern(&shown).unwrap().words, written.words);
        }
    }
}
