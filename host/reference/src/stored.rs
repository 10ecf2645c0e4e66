//! The test data of the gate's programs `calls`, `runs`, `steps` and `logs`: words of 16 bits, the lower byte first. Here as text,
//! as words, and with the lines that the programs must print. replans.rs has those of `replans`, pairs.rs those of `pairs`.
use crate::calls::{Answer, Model, EMPTIED, TABLE};
use crate::json::Json;
use crate::pattern::admitted;
use crate::rows::{rows_of, shared_value, Side};
use crate::signature::Signature;
use crate::stepped::through;
use crate::tally::tally;

/// A step of `calls`, each with its number in the file.
#[derive(Clone, Debug, PartialEq)]
pub enum Step {
    /// 0: a new list of calls; a table of so many words is emptied.
    Table { words: u16, signature: Vec<u16> },
    /// 1, or 8 where the line shows what 12 gives.
    Enter { in_full: bool, number: u16, plan: u16, witness: u16, pattern: Vec<u16> },
    /// 2
    Withdraw { number: u16 },
    /// 3
    Compile { space: u16 },
    /// 4
    Decide { booking: Vec<u16> },
    /// 5
    Run { tree: Vec<u16>, booking: Vec<u16> },
    /// 6: the table's words.
    Show,
    /// 7: a word of the table is changed by hand.
    Change { index: u16, word: u16 },
    /// 9
    SetDefault { plan: u16 },
    /// 10
    Gap { witness: u16 },
}
use Step::*;

pub fn to_words(bytes: &[u8]) -> Vec<u16> {
    bytes.chunks_exact(2).map(|b| u16::from_le_bytes([b[0], b[1]])).collect()
}

pub fn to_bytes(words: &[u16]) -> Vec<u8> {
    words.iter().flat_map(|w| w.to_le_bytes()).collect()
}

pub fn spaced(words: &[u16]) -> String {
    words.iter().map(|w| format!(" {w}")).collect()
}

/// Reads words from the front.
struct Words<'a>(&'a [u16]);

impl Words<'_> {
    fn one(&mut self) -> u16 {
        let w = self.0[0];
        self.0 = &self.0[1..];
        w
    }

    fn list(&mut self) -> Vec<u16> {
        let n = self.one() as usize;
        self.some(n)
    }

    fn some(&mut self, n: usize) -> Vec<u16> {
        let (l, rest) = self.0.split_at(n);
        self.0 = rest;
        l.to_vec()
    }
}

impl Step {
    pub fn all(words: &[u16]) -> Vec<Step> {
        let mut w = Words(words);
        let mut all = vec![];
        while !w.0.is_empty() {
            all.push(Step::first(&mut w));
        }
        all
    }

    fn first(w: &mut Words) -> Step {
        match w.one() {
            0 => Table { words: w.one(), signature: w.list() },
            k @ (1 | 8) => Enter { in_full: k == 8, number: w.one(), plan: w.one(), witness: w.one(), pattern: w.list() },
            2 => Withdraw { number: w.one() },
            3 => Compile { space: w.one() },
            4 => Decide { booking: w.list() },
            5 => Run { tree: w.list(), booking: w.list() },
            6 => Show,
            7 => Change { index: w.one(), word: w.one() },
            9 => SetDefault { plan: w.one() },
            10 => Gap { witness: w.one() },
            k => panic!("no step {k}"),
        }
    }

    pub fn words(&self) -> Vec<u16> {
        let list = |l: &[u16]| [&[l.len() as u16], l].concat();
        match self {
            Table { words, signature } => [vec![0, *words], list(signature)].concat(),
            Enter { in_full, number, plan, witness, pattern } => {
                [vec![if *in_full { 8 } else { 1 }, *number, *plan, *witness], list(pattern)].concat()
            }
            Withdraw { number } => vec![2, *number],
            Compile { space } => vec![3, *space],
            Decide { booking } => [vec![4], list(booking)].concat(),
            Run { tree, booking } => [vec![5], list(tree), list(booking)].concat(),
            Show => vec![6],
            Change { index, word } => vec![7, *index, *word],
            SetDefault { plan } => vec![9, *plan],
            Gap { witness } => vec![10, *witness],
        }
    }

    pub fn text(&self) -> String {
        match self {
            Table { words, signature } => format!("table {words} signature{}", spaced(signature)),
            Enter { in_full, number, plan, witness, pattern } => {
                let full = if *in_full { " in-full" } else { "" };
                format!("enter {number} plan {plan} witness {witness}{full} pattern{}", spaced(pattern))
            }
            Withdraw { number } => format!("withdraw {number}"),
            Compile { space } => format!("compile {space}"),
            Decide { booking } => format!("decide{}", spaced(booking)),
            Run { tree, booking } => format!("run{} booking{}", spaced(tree), spaced(booking)),
            Show => "show".into(),
            Change { index, word } => format!("change {index} {word}"),
            SetDefault { plan } => format!("default {plan}"),
            Gap { witness } => format!("gap {witness}"),
        }
    }

    /// All as text, a line each; words that are changed one behind the other stand in one line.
    pub fn lines(all: &[Step]) -> Vec<String> {
        let mut out: Vec<String> = vec![];
        let mut next = None;
        for step in all {
            match step {
                Change { index, word } if next == Some(*index) => *out.last_mut().unwrap() += &format!(" {word}"),
                step => out.push(step.text()),
            }
            next = if let Change { index, .. } = step { Some(index + 1) } else { None };
        }
        out
    }

    /// The steps of a line as `lines` writes it; none for an empty line and one that begins with `#`.
    pub fn read(line: &str) -> Vec<Step> {
        if line.trim().is_empty() || line.starts_with('#') {
            return vec![];
        }
        let mut names: Vec<&str> = vec![];
        let mut lists: Vec<Vec<u16>> = vec![];
        for token in line.split_whitespace() {
            match token.parse() {
                Ok(n) => lists.last_mut().unwrap().push(n),
                Err(_) => {
                    names.push(token);
                    lists.push(vec![]);
                }
            }
        }
        let one = |i: usize| lists[i][0];
        let step = match names[..] {
            ["table", "signature"] => Table { words: one(0), signature: lists[1].clone() },
            ["enter", "plan", "witness", "pattern"] => {
                Enter { in_full: false, number: one(0), plan: one(1), witness: one(2), pattern: lists[3].clone() }
            }
            ["enter", "plan", "witness", "in-full", "pattern"] => {
                Enter { in_full: true, number: one(0), plan: one(1), witness: one(2), pattern: lists[4].clone() }
            }
            ["withdraw"] => Withdraw { number: one(0) },
            ["compile"] => Compile { space: one(0) },
            ["decide"] => Decide { booking: lists[0].clone() },
            ["run", "booking"] => Run { tree: lists[0].clone(), booking: lists[1].clone() },
            ["show"] => Show,
            ["default"] => SetDefault { plan: one(0) },
            ["gap"] => Gap { witness: one(0) },
            ["change"] => return lists[0][1..].iter().zip(one(0)..).map(|(w, index)| Change { index, word: *w }).collect(),
            _ => panic!("not understood: {line}"),
        };
        vec![step]
    }
}

/// A run of `runs`: signature, tree, booking.
pub type Run3 = (Vec<u16>, Vec<u16>, Vec<u16>);

pub fn runs_of(words: &[u16]) -> Vec<Run3> {
    let mut w = Words(words);
    let mut all = vec![];
    while !w.0.is_empty() {
        let n = [w.one(), w.one(), w.one()].map(usize::from);
        all.push((w.some(n[0]), w.some(n[1]), w.some(n[2])));
    }
    all
}

pub fn run_words((s, t, b): &Run3) -> Vec<u16> {
    [&[s.len() as u16, t.len() as u16, b.len() as u16], &s[..], t, b].concat()
}

pub fn run_text((s, t, b): &Run3) -> String {
    format!("signature{} tree{} booking{}", spaced(s), spaced(t), spaced(b))
}

/// A booking of `steps`: signature, booking.
pub type Booking = (Vec<u16>, Vec<u16>);

pub fn bookings_of(words: &[u16]) -> Vec<Booking> {
    let mut w = Words(words);
    let mut all = vec![];
    while !w.0.is_empty() {
        let n = [w.one(), w.one()].map(usize::from);
        all.push((w.some(n[0]), w.some(n[1])));
    }
    all
}

pub fn booking_words((s, b): &Booking) -> Vec<u16> {
    [&[s.len() as u16, b.len() as u16], &s[..], b].concat()
}

pub fn booking_text((s, b): &Booking) -> String {
    format!("signature{} booking{}", spaced(s), spaced(b))
}

/// The logs of `logs`.
pub fn logs_of(words: &[u16]) -> Vec<Vec<u16>> {
    let mut w = Words(words);
    let mut all = vec![];
    while !w.0.is_empty() {
        all.push(w.list());
    }
    all
}

pub fn log_words(log: &[u16]) -> Vec<u16> {
    [&[log.len() as u16], log].concat()
}

pub fn log_text(log: &[u16]) -> String {
    format!("log{}", spaced(log))
}

// ---- from the vectors

/// An entry, a withdrawal or a default set, as a list has it.
fn step_of(call: &Json) -> Step {
    let call = call.list();
    let number = call[1].number() as u16;
    match call[0].text() {
        "enter" => Enter {
            in_full: false,
            number,
            plan: call[2].number() as u16,
            witness: call[4].number() as u16,
            pattern: call[3].words(),
        },
        "withdraw" => Withdraw { number },
        "default" => SetDefault { plan: number },
        call => panic!("no call {call}"),
    }
}

/// The steps of a list of calls: the calls, the table where the signature is lawful, compile, the bookings decided, the first eight runs,
/// and the gap where the list has one.
pub fn steps_of(v: &Json) -> Vec<Step> {
    let mut all = vec![Table { words: v.get("table_words").number() as u16, signature: v.get("sig").words() }];
    all.extend(v.get("calls").list().iter().map(step_of));
    if v.get("compile").words()[0] != 1 {
        all.push(Show);
    }
    all.push(Compile { space: v.get("space").number() as u16 });
    all.extend(v.get("decide").list().iter().map(|d| Decide { booking: d.get("booking").words() }));
    all.extend(v.get("run").list().iter().take(8).map(|d| Run { tree: d.get("tree").words(), booking: d.get("booking").words() }));
    if v.has("records") {
        let witness = |r: &Json| r.get("in").get("witness").packed().len() as u16;
        all.extend(v.get("records").list().iter().map(|r| Gap { witness: witness(r) }));
    }
    all
}

/// The steps of single calls on tables: the table's first 4,290 words changed to what a call is lent, the call, and the table where
/// it may have been written. Calls of one signature stand in one list.
pub fn steps_in(records: &[Json]) -> Vec<Step> {
    let mut all = vec![];
    let mut lent: (Vec<u16>, Vec<u16>) = (vec![], vec![]);
    for r in records {
        let (call, given, out) = (r.get("call").text(), r.get("in"), r.get("out"));
        if !["set_default", "list", "decide", "compile", "gap"].contains(&call) {
            continue;
        }
        let (signature, table) = (given.get("sig").packed(), given.get("table").packed());
        if lent.0 != signature || lent.1.len() != table.len() {
            all.push(Table { words: table.len() as u16, signature: signature.clone() });
            lent = (signature, vec![0; table.len()]);
            lent.1[1] = EMPTIED;
        }
        let changed = (0..table.len().min(TABLE)).filter(|i| table[*i] != lent.1[*i]);
        all.extend(changed.map(|i| Change { index: i as u16, word: table[i] }));
        lent.1 = table;
        let bookings = || given.get("bookings").list().iter().map(|b| Decide { booking: b.words() });
        match call {
            "set_default" => all.push(SetDefault { plan: given.get("plan").number() as u16 }),
            "list" => {
                all.extend(bookings());
                all.extend(given.get("calls").list().iter().map(step_of));
            }
            "decide" => all.push(Decide { booking: given.get("booking").packed() }),
            "gap" => all.push(Gap { witness: given.get("witness").packed().len() as u16 }),
            _ => all.push(Compile { space: given.get("space").packed().len() as u16 }),
        }
        if !out.has("table") {
            continue;
        }
        all.push(Show);
        if let after @ Json::List(_) = out.get("table") {
            lent.1 = after.packed();
        }
        if call == "list" {
            all.extend(bookings());
        }
    }
    all
}

/// The runs of a list of calls; under an unlawful signature one over the least tree.
pub fn runs_in(v: &Json) -> Vec<Run3> {
    let sig = v.get("sig").words();
    if v.get("compile").words()[0] == 1 {
        return vec![(sig, vec![0, 1], v.get("decide").list()[0].get("booking").words())];
    }
    v.get("run").list().iter().map(|d| (sig.clone(), d.get("tree").words(), d.get("booking").words())).collect()
}

/// The run of a record, if it is one.
pub fn run_in(r: &Json) -> Option<Run3> {
    let words = |key: &str| r.get("in").get(key).packed();
    (r.get("call").text() == "run").then(|| (words("sig"), words("tree"), words("booking")))
}

/// The booking of a record.
pub fn booking_in(r: &Json) -> Booking {
    (r.get("in").get("sig").packed(), r.get("in").get("booking").packed())
}

/// The log of a record.
pub fn log_in(r: &Json) -> Vec<u16> {
    r.get("in").get("log").packed()
}

// ---- what the programs print

pub fn answer_line((number, rule, plan, places): Answer) -> String {
    let bound: String = (0..16).filter(|x| places[*x] != 65535 && number == 0).map(|x| format!(" {x}:{}", places[x])).collect();
    format!("{number} {rule} {plan}{bound}\n")
}

/// The words that `calls` has for a witness buffer.
const WITNESS_ROOM: u16 = 5000;

/// The lines of `calls`.
pub fn played(steps: &[Step]) -> String {
    let mut model = Model::default();
    let mut sig: Vec<u16> = vec![];
    let mut lent = 0;
    // the program's own table, of which a list is lent the front
    let mut whole = vec![0u16; 4400];
    let mut out = String::new();
    for step in steps {
        let table = whole[..lent].to_vec();
        let mut write = |after: Vec<u16>| whole[..after.len()].copy_from_slice(&after);
        match step {
            Table { words, signature } => {
                lent = *words as usize;
                sig = signature.clone();
                let (n, after) = model.empty(&whole[..lent]);
                whole[..lent].copy_from_slice(&after);
                out += &format!("{n}\n");
            }
            Enter { in_full, number, plan, witness, pattern } => {
                assert!(*witness <= WITNESS_ROOM);
                let (n, rule, after) = model.enter(&sig, *number, *plan, pattern, &table, *witness as usize);
                out += &n.to_string();
                if n == 12 && *in_full {
                    let shown = shown(&sig, &table, rule, pattern);
                    out += &format!(" {rule} {}{}", shown.len(), spaced(&shown));
                }
                out += "\n";
                write(after);
            }
            Withdraw { number } => {
                let (n, after) = model.withdraw(&sig, *number, &table);
                out += &format!("{n}\n");
                write(after);
            }
            SetDefault { plan } => {
                let (n, after) = model.set_default(&sig, *plan, &table);
                out += &format!("{n}\n");
                write(after);
            }
            Compile { space } => {
                let (n, length, words) = model.compile(&sig, &table, &vec![0; *space as usize]);
                out += &format!("{n} {length}{}\n", spaced(&words[..length]));
            }
            Decide { booking } => out += &answer_line(model.decide(&sig, &table, booking)),
            // which booking is shown is open: of it the line of its decision
            Gap { witness } => {
                assert!(*witness <= WITNESS_ROOM);
                let (n, shown) = model.gap(&sig, &table, *witness as usize);
                out += &format!("{n}{}\n", if shown.is_some() { " shown" } else { "" });
                if let Some(b) = shown {
                    out += &answer_line(model.decide(&sig, &table, &b));
                }
            }
            Run { tree, booking } => out += &answer_line(model.run(&sig, tree, booking)),
            Show => {
                let used = table.iter().rposition(|w| *w != 0).map_or(0, |i| i + 1);
                out += &format!("table{}\n", spaced(&table[..used]));
            }
            Change { index, word } => whole[*index as usize] = *word,
        }
    }
    out
}

/// A booking that a held rule and a pattern share. 01 leaves open which; the data asks only where there is one.
fn shown(sig: &[u16], table: &[u16], rule: u16, pattern: &[u16]) -> Vec<u16> {
    let sig = Signature::read(sig).unwrap();
    let rules = crate::calls::sound(&sig, &table[..TABLE]).unwrap();
    let held = rules.iter().find(|r| r.number == rule).unwrap();
    let rows = rows_of(&sig, &admitted(&sig, pattern).unwrap(), 0, Side::Plus);
    shared_value(&sig, 0, &held.rows, &rows).unwrap().words()
}

/// The lines of `runs`.
pub fn ran(runs: &[Run3]) -> String {
    let mut model = Model::default();
    runs.iter().map(|(s, t, b)| answer_line(model.run(s, t, b))).collect()
}

/// The line of `steps` for a booking, which must have the numbers of its record: the number at the end, how many words were read,
/// and after how many the booking was lawful, 0 for none. The numbers are also those of the same words checked whole.
pub fn stepped(booking: &Booking, record: &Json) -> String {
    assert_eq!(*booking, booking_in(record), "the data file has another booking than the vectors");
    let (s, b) = booking;
    let (numbers, read) = through(s, b);
    let last = numbers[b.len()];
    let out = record.get("out");
    let first = out.get("prefixes").packed();
    assert_eq!((last as usize, &numbers[..first.len()]), (out.get("number").number(), &first[..]), "{record:?}");
    let sig = Signature::read(s);
    let whole = |words: &[u16]| sig.as_ref().map_or(1, |sig| if sig.read_booking(words).is_some() { 0 } else { 13 });
    assert!((0..=b.len()).all(|n| numbers[n] == whole(&b[..n])), "{record:?}");
    let lawful = numbers.iter().position(|n| *n == 0).unwrap_or(0);
    format!("{last} {read} {lawful}\n")
}

/// The line of `logs` for a log, which must have what its record has: the number, the total, and each rule in the log with its count.
pub fn tallied(log: &[u16], record: &Json) -> String {
    assert_eq!(log, log_in(record), "the data file has another log than the vectors");
    let (number, lines, total) = tally(log);
    let out = record.get("out");
    let flat: Vec<u16> = lines.iter().flat_map(|(rule, count)| [*rule, *count]).collect();
    let expected = (out.get("number").number(), out.get("total").number(), out.get("lines").words());
    assert_eq!((number as usize, total as usize, flat), expected, "{record:?}");
    let counts: String = lines.iter().map(|(rule, count)| format!(" {rule}:{count}")).collect();
    format!("{number} {total}{counts}\n")
}
