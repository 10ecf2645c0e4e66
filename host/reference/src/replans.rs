//! The test data of the gate's program `replans`: cases by hand and from the vectors, and the lines that it must print.
use crate::charges::{list_of, replan, Charge};
use crate::json::Json;
use crate::stored::{spaced, Run3};

/// Signature, tree and list of open charges; in words as a run is.
pub type Replan = Run3;

/// The cases of a text. A line has a word and numbers; `signature` and `tree` hold for all cases behind them, until others come.
#[derive(Default)]
pub struct ByHand {
    signature: Vec<u16>,
    tree: Vec<u16>,
    charges: Vec<Charge>,
    /// Words of the list that are changed: each index with its word.
    changes: Vec<(usize, u16)>,
    /// How many words of the list are lent, zeros added where it has fewer.
    words: Option<usize>,
    cases: Vec<Replan>,
}

impl ByHand {
    pub fn read(text: &str) -> Vec<Replan> {
        let mut all = ByHand::default();
        text.lines().filter(|l| !l.trim().is_empty() && !l.starts_with('#')).for_each(|l| all.line(l));
        assert!(all.charges.is_empty(), "the last case has no replan");
        all.cases
    }

    fn line(&mut self, line: &str) {
        let mut tokens = line.split_whitespace();
        let word = tokens.next().unwrap();
        let n: Vec<u16> = tokens.map(|t| t.parse().expect(line)).collect();
        match (word, &n[..]) {
            ("signature", _) => self.signature = n,
            ("tree", _) => self.tree = n,
            ("charge", [rule, plan, booking @ ..]) => self.charges.push((*rule, *plan, booking.to_vec())),
            // the last charge stands there so often
            ("times", [times]) => (1..*times).for_each(|_| self.charges.push(self.charges.last().unwrap().clone())),
            ("change", [index, word]) => self.changes.push((*index as usize, *word)),
            ("words", [n]) => self.words = Some(*n as usize),
            ("replan", []) => self.case(),
            _ => panic!("not understood: {line}"),
        }
    }

    fn case(&mut self) {
        let mut list = list_of(&std::mem::take(&mut self.charges));
        list.resize(self.words.take().unwrap_or(list.len()), 0);
        self.changes.drain(..).for_each(|(i, w)| list[i] = w);
        self.cases.push((self.signature.clone(), self.tree.clone(), list));
    }
}

/// The case of a record.
pub fn replan_in(r: &Json) -> Replan {
    let words = |key: &str| r.get("in").get(key).packed();
    (words("sig"), words("tree"), words("charges"))
}

pub fn replan_text((s, t, c): &Replan) -> String {
    format!("signature{} tree{} charges{}", spaced(s), spaced(t), spaced(c))
}

/// The line of a case: the number, the count, and each word of the list afterwards that is not 0, behind its index.
pub fn replanned((s, t, c): &Replan) -> String {
    let (number, changed, list) = replan(s, t, c);
    let words: String = list.iter().enumerate().filter(|(_, w)| **w != 0).map(|(i, w)| format!(" {i}:{w}")).collect();
    format!("{number} {changed}{words}\n")
}

/// The same of a record, which must have what is answered.
pub fn replanned_as(case: &Replan, record: &Json) -> String {
    assert_eq!(*case, replan_in(record), "the data file has another list than the vectors");
    let (number, changed, list) = replan(&case.0, &case.1, &case.2);
    let out = record.get("out");
    let after = if let Json::Text(_) = out.get("charges") { case.2.clone() } else { out.get("charges").packed() };
    assert_eq!((number as usize, changed as usize, list), (out.get("number").number(), out.get("changed").number(), after), "{record:?}");
    replanned(case)
}
