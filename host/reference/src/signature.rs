//! 01, Signature and Bookings; 02, job 1: number kinds and levels.
use std::ops::RangeInclusive;

/// The words of the levels 0 to 100.
pub const LEVELS: RangeInclusive<u16> = 1000..=1100;

pub struct Constructor {
    pub kind: usize,
    pub arguments: Vec<usize>,
    /// Whether the row declares a number kind.
    pub number: bool,
}

pub struct Signature {
    pub constructors: Vec<Constructor>,
    pub kinds: usize,
    /// For each kind a constructor of its smallest value, and that value's size.
    pub least: Vec<(u16, usize)>,
}

#[derive(Clone, Debug, PartialEq)]
pub struct Value {
    pub head: u16,
    pub arguments: Vec<Value>,
}

impl Signature {
    pub fn read(words: &[u16]) -> Option<Signature> {
        let mut rest = words.iter().map(|w| *w as usize);
        let n = rest.next()?;
        if n < 1 || n > 256 {
            return None;
        }
        let mut constructors: Vec<Constructor> = vec![];
        for i in 0..n {
            let kind = rest.next()?;
            let count = rest.next()?;
            let before = if i == 0 { 0 } else { constructors[i - 1].kind };
            let steps = kind == before || (i > 0 && kind == before + 1);
            if !steps || count > 5 {
                return None;
            }
            let number = count == 5;
            let mut arguments = vec![];
            for _ in 0..if number { 0 } else { count } {
                arguments.push(rest.next()?);
            }
            constructors.push(Constructor { kind, arguments, number });
        }
        if rest.next().is_some() {
            return None;
        }
        let kinds = constructors[n - 1].kind + 1;
        if kinds > 32 {
            return None;
        }
        for k in 0..kinds {
            let rows: Vec<&Constructor> = constructors.iter().filter(|c| c.kind == k).collect();
            if rows.len() > 64 || (rows.len() > 1 && rows.iter().any(|c| c.number)) {
                return None;
            }
        }
        if constructors.iter().any(|c| c.arguments.iter().any(|a| *a >= kinds)) {
            return None;
        }
        let least = least_values(&constructors, kinds)?;
        if least.iter().any(|(_, size)| *size > 6) {
            return None;
        }
        Some(Signature { constructors, kinds, least })
    }

    pub fn is_number(&self, kind: usize) -> bool {
        self.constructors.iter().any(|c| c.kind == kind && c.number)
    }

    /// Its constructors, or the levels.
    pub fn heads(&self, kind: usize) -> RangeInclusive<u16> {
        if self.is_number(kind) {
            return LEVELS;
        }
        let first = self.constructors.iter().position(|c| c.kind == kind).unwrap() as u16;
        let last = self.constructors.iter().rposition(|c| c.kind == kind).unwrap() as u16;
        first..=last
    }

    pub fn arguments(&self, head: u16) -> &[usize] {
        self.constructors.get(head as usize).map_or(&[], |c| &c.arguments)
    }

    pub fn has(&self, head: u16, kind: usize) -> bool {
        self.heads(kind).contains(&head)
    }

    pub fn least_value(&self, kind: usize) -> Value {
        self.least_under(self.least[kind].0)
    }

    pub fn least_under(&self, head: u16) -> Value {
        Value { head, arguments: self.arguments(head).iter().map(|k| self.least_value(*k)).collect() }
    }

    pub fn read_value(&self, kind: usize, words: &[u16], at: &mut usize, depth: usize) -> Option<Value> {
        let head = *words.get(*at)?;
        if depth == 0 || !self.has(head, kind) {
            return None;
        }
        *at += 1;
        let mut arguments = vec![];
        for k in self.arguments(head) {
            arguments.push(self.read_value(*k, words, at, depth - 1)?);
        }
        Some(Value { head, arguments })
    }

    pub fn read_booking(&self, words: &[u16]) -> Option<Value> {
        if words.is_empty() || words.len() > 4096 {
            return None;
        }
        let mut at = 0;
        let value = self.read_value(0, words, &mut at, 256)?;
        if at == words.len() { Some(value) } else { None }
    }

    /// The place of the first word of a booking that may not stand there: of another kind, 257 deep, behind the end, or the 4,097th.
    pub fn wrong_at(&self, words: &[u16]) -> Option<usize> {
        let mut at = 0;
        self.read_value(0, words, &mut at, 256);
        Some(at.min(4096)).filter(|at| *at < words.len())
    }
}

/// Sizes shrink round by round until nothing changes; none if a kind has no value.
fn least_values(constructors: &[Constructor], kinds: usize) -> Option<Vec<(u16, usize)>> {
    let mut least: Vec<Option<(u16, usize)>> = vec![None; kinds];
    loop {
        let mut changed = false;
        for (c, con) in constructors.iter().enumerate() {
            let mut size = Some(1usize);
            for a in &con.arguments {
                size = match (size, least[*a]) {
                    (Some(s), Some((_, t))) => Some(s.saturating_add(t)),
                    _ => None,
                };
            }
            if let Some(s) = size {
                if least[con.kind].map_or(true, |(_, t)| s < t) {
                    least[con.kind] = Some((if con.number { *LEVELS.start() } else { c as u16 }, s));
                    changed = true;
                }
            }
        }
        if !changed {
            return least.into_iter().collect();
        }
    }
}

impl Value {
    pub fn size(&self) -> usize {
        1 + self.arguments.iter().map(Value::size).sum::<usize>()
    }

    pub fn depth(&self) -> usize {
        1 + self.arguments.iter().map(Value::depth).max().unwrap_or(0)
    }

    pub fn words(&self) -> Vec<u16> {
        let mut out = vec![];
        self.put(&mut out);
        out
    }

    fn put(&self, out: &mut Vec<u16>) {
        out.push(self.head);
        for a in &self.arguments {
            a.put(out);
        }
    }

    /// The part that begins at a place.
    pub fn part(&self, place: usize) -> Option<&Value> {
        if place == 0 {
            return Some(self);
        }
        let mut left = place - 1;
        for a in &self.arguments {
            let n = a.size();
            if left < n {
                return a.part(left);
            }
            left -= n;
        }
        None
    }
}

/// All values of a kind with at most so many words: for small signatures only.
pub fn all_values(sig: &Signature, kind: usize, most: usize, count: usize) -> Vec<Value> {
    let mut out = vec![];
    if most == 0 {
        return out;
    }
    for head in sig.heads(kind) {
        let mut lists: Vec<(Vec<Value>, usize)> = vec![(vec![], 1)];
        for k in sig.arguments(head) {
            let mut next = vec![];
            for (list, used) in &lists {
                if *used >= most {
                    continue;
                }
                for v in all_values(sig, *k, most - used, count) {
                    let mut longer = list.clone();
                    let size = used + v.size();
                    longer.push(v);
                    next.push((longer, size));
                    if next.len() > count {
                        break;
                    }
                }
            }
            lists = next;
        }
        out.extend(lists.into_iter().map(|(arguments, _)| Value { head, arguments }));
        if out.len() > count {
            break;
        }
    }
    out
}
