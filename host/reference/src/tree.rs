//! 01, Tree, and 02, job 1, node 4, and job 3, the default leaf: the tree of rows by its rules, its words, and a run over them.
use crate::rows::{Row, Test};
use crate::signature::{Signature, Value, LEVELS};

pub enum Tree {
    Default { plan: u16 },
    Hit { rule: u16, plan: u16, binds: Vec<(u8, usize)> },
    Branch { first: u16, children: Vec<Tree> },
    Skip(Box<Tree>),
    /// The upper ends of the levels that each child is for.
    Split { ends: Vec<u16>, children: Vec<Tree> },
}

/// A row on its way down: the columns still to take, the first one last; none is a column that the row leaves open.
#[derive(Clone)]
struct Line<'a> {
    columns: Vec<Option<&'a Row>>,
    binds: Vec<(u8, usize)>,
    rule: u16,
    plan: u16,
}

/// The tree of rows (with rule and plan each) and of a default plan, or none where it has more words than allowed.
pub fn tree_of(sig: &Signature, rows: &[(Row, u16, u16)], default: u16, most: usize) -> Option<Tree> {
    let lines = rows
        .iter()
        .map(|(r, rule, plan)| Line { columns: vec![Some(r)], binds: vec![], rule: *rule, plan: *plan })
        .collect();
    let mut left = most;
    node(sig, lines, vec![0], 0, default, &mut left)
}

fn spend(left: &mut usize, n: usize) -> Option<()> {
    *left = left.checked_sub(n)?;
    Some(())
}

fn node(sig: &Signature, mut lines: Vec<Line>, mut kinds: Vec<usize>, visit: usize, default: u16, left: &mut usize) -> Option<Tree> {
    if lines.is_empty() {
        spend(left, 2)?;
        return Some(Tree::Default { plan: default });
    }
    let Some(kind) = kinds.pop() else {
        return hit(&lines, left);
    };
    let mut refined = false;
    let mut firsts = vec![];
    for line in &mut lines {
        let cell = line.columns.pop().unwrap();
        if let Some(row) = cell {
            refined |= row.refined();
            line.binds.extend(row.variables.iter().map(|x| (*x, visit)));
        }
        firsts.push(cell);
    }
    if !refined {
        spend(left, 1)?;
        return Some(Tree::Skip(Box::new(node(sig, lines, kinds, visit + 1, default, left)?)));
    }
    let number = sig.is_number(kind);
    let heads: Vec<u16> = if number { ends_of(&firsts) } else { sig.heads(kind).collect() };
    spend(left, if number { 2 + 2 * heads.len() } else { 3 + heads.len() })?;
    let mut children = vec![];
    for c in &heads {
        let arguments = sig.arguments(*c);
        let mut kept = vec![];
        for (line, cell) in lines.iter().zip(&firsts) {
            if let Some(next) = under(line, *cell, *c, arguments.len()) {
                kept.push(next);
            }
        }
        let mut deeper = kinds.clone();
        deeper.extend(arguments.iter().rev());
        children.push(node(sig, kept, deeper, visit + 1, default, left)?);
    }
    Some(match number {
        true => Tree::Split { ends: heads.iter().map(|w| w - LEVELS.start()).collect(), children },
        false => Tree::Branch { first: heads[0], children },
    })
}

/// The words of the levels 100 and each v where some row holds just one of v and v + 1.
fn ends_of(firsts: &[Option<&Row>]) -> Vec<u16> {
    let holds = |row: &Row, w: u16| matches!(&row.test, Test::Excluded(out) if !out.contains(&w));
    let edge = |w: u16| firsts.iter().flatten().any(|row| holds(row, w) != holds(row, w + 1));
    LEVELS.filter(|w| w == LEVELS.end() || edge(*w)).collect()
}

/// The line under a constructor of its first column, if it allows that one.
fn under<'a>(line: &Line<'a>, cell: Option<&'a Row>, c: u16, arguments: usize) -> Option<Line<'a>> {
    let mut next = line.clone();
    match cell.map(|r| &r.test) {
        Some(Test::Named(d, parts)) => {
            if *d != c {
                return None;
            }
            next.columns.extend(parts.iter().rev().map(Some));
        }
        Some(Test::Excluded(out)) if out.contains(&c) => return None,
        _ => next.columns.extend(std::iter::repeat(None).take(arguments)),
    }
    Some(next)
}

fn hit(lines: &[Line], left: &mut usize) -> Option<Tree> {
    let mut binds = lines[0].binds.clone();
    binds.sort();
    for line in lines {
        let mut others = line.binds.clone();
        others.sort();
        assert!(line.rule == lines[0].rule && others == binds, "rows at one leaf are one rule's and bind alike");
    }
    spend(left, 4 + 2 * binds.len())?;
    Some(Tree::Hit { rule: lines[0].rule, plan: lines[0].plan, binds })
}

impl Tree {
    pub fn words(&self) -> Vec<u16> {
        let mut out = vec![];
        self.put(&mut out);
        out
    }

    fn put(&self, out: &mut Vec<u16>) {
        match self {
            Tree::Default { plan } => out.extend([0, *plan]),
            Tree::Hit { rule, plan, binds } => {
                out.extend([1, *rule, *plan, binds.len() as u16]);
                for (x, visit) in binds {
                    out.extend([*x as u16, *visit as u16]);
                }
            }
            Tree::Branch { first, children } => {
                out.extend([2, *first, children.len() as u16]);
                let links = out.len();
                out.extend(std::iter::repeat(0).take(children.len()));
                for (i, child) in children.iter().enumerate() {
                    out[links + i] = out.len() as u16;
                    child.put(out);
                }
            }
            Tree::Skip(child) => {
                out.push(3);
                child.put(out);
            }
            Tree::Split { ends, children } => {
                out.extend([4, ends.len() as u16]);
                out.extend(ends);
                let links = out.len();
                out.extend(std::iter::repeat(0).take(children.len()));
                for (i, child) in children.iter().enumerate() {
                    out[links + i] = out.len() as u16;
                    child.put(out);
                }
            }
        }
    }
}

pub type Found = (u16, u16, [u16; 16]);

/// The answer where no rule takes a booking.
pub fn unmatched(plan: u16) -> Found {
    (0, plan, [65535; 16])
}

/// A run of a booking over the words of a tree, or none where a walked node is broken.
pub fn run(sig: &Signature, tree: &[u16], booking: &Value) -> Option<Found> {
    let word = |i: usize| tree.get(i).map(|w| *w as usize);
    // the parts still to take with their places, the next one last
    let mut parts = vec![(booking, 0usize)];
    let mut visits: Vec<usize> = vec![];
    let mut at = 0;
    loop {
        match word(at)? {
            0 => return Some(unmatched(word(at + 1)? as u16)),
            1 => {
                let (rule, plan, n) = (word(at + 1)?, word(at + 2)?, word(at + 3)?);
                if !parts.is_empty() || rule < 1 || rule > 999 {
                    return None;
                }
                let mut places = [65535u16; 16];
                let mut before: Option<usize> = None;
                for i in 0..n {
                    let (x, visit) = (word(at + 4 + 2 * i)?, word(at + 5 + 2 * i)?);
                    if x > 15 || before.is_some_and(|y| y >= x) || visit >= visits.len() {
                        return None;
                    }
                    before = Some(x);
                    places[x] = visits[visit] as u16;
                }
                return Some((rule as u16, plan as u16, places));
            }
            2 => {
                let (part, place) = parts.pop()?;
                // a level is no constructor: broken
                let kind = sig.constructors.get(part.head as usize)?.kind;
                let heads: Vec<u16> = sig.heads(kind).collect();
                if word(at + 1)? != heads[0] as usize || word(at + 2)? != heads.len() {
                    return None;
                }
                let link = word(at + 3 + (part.head - heads[0]) as usize)?;
                if link <= at {
                    return None;
                }
                visits.push(place);
                let mut behind = place + 1;
                let mut arguments = vec![];
                for a in &part.arguments {
                    arguments.push((a, behind));
                    behind += a.size();
                }
                parts.extend(arguments.into_iter().rev());
                at = link;
            }
            3 => {
                let (_, place) = parts.pop()?;
                visits.push(place);
                at += 1;
            }
            4 => {
                let (part, place) = parts.pop()?;
                let n = word(at + 1)?;
                let ends: Vec<usize> = (0..n).map(|i| word(at + 2 + i)).collect::<Option<_>>()?;
                let rise = ends.windows(2).all(|w| w[0] < w[1]) && ends.last() == Some(&100);
                if !rise || !LEVELS.contains(&part.head) {
                    return None;
                }
                let level = (part.head - LEVELS.start()) as usize;
                let link = word(at + 2 + n + ends.iter().position(|e| *e >= level)?)?;
                if link <= at {
                    return None;
                }
                visits.push(place);
                at = link;
            }
            _ => return None,
        }
    }
}
