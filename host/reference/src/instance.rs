//! The tables of host/vectors/instances: lines sig=, rule=, plan= and pat= as in a text, and gap=, the least booking that no rule
//! takes, empty where there is none.
use crate::calls::{TABLE, WITNESS};
use crate::stored::Step;

const ASKED: Step = Step::Gap { witness: WITNESS as u16 };

pub struct Instance {
    pub signature: Vec<u16>,
    /// number, plan, pattern
    pub rules: Vec<(u16, u16, Vec<u16>)>,
    pub gap: Vec<u16>,
}

impl Instance {
    pub fn read(text: &str) -> Instance {
        let mut i = Instance { signature: vec![], rules: vec![], gap: vec![] };
        for line in text.lines().filter(|l| !l.is_empty() && !l.starts_with('#')) {
            let (key, list) = line.split_once('=').unwrap();
            let words: Vec<u16> = list.split_whitespace().map(|w| w.parse().unwrap()).collect();
            match key {
                "sig" => i.signature = words,
                "rule" => i.rules.push((words[0], 0, vec![])),
                "plan" => i.rules.last_mut().unwrap().1 = words[0],
                "pat" => i.rules.last_mut().unwrap().2 = words,
                "gap" => i.gap = words,
                key => panic!("no key {key}"),
            }
        }
        i
    }

    /// The steps of `calls`: the rules entered, compile, and the gap. The last rule but one comes last, and the gap is asked before
    /// it too: in `brief31` a place is then left open.
    pub fn steps(&self) -> Vec<Step> {
        let mut rules: Vec<Step> = self.rules.iter().map(entered).collect();
        let last = rules.remove(rules.len() - 2);
        let mut all = vec![Step::Table { words: TABLE as u16, signature: self.signature.clone() }];
        all.extend(rules);
        all.extend([ASKED, last, Step::Compile { space: 32768 }, ASKED]);
        all
    }
}

fn entered((number, plan, pattern): &(u16, u16, Vec<u16>)) -> Step {
    Step::Enter { in_full: false, number: *number, plan: *plan, witness: WITNESS as u16, pattern: pattern.clone() }
}
