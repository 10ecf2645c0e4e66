// A booking that no rule takes. A branch is a path of steps (row, kept cells, cell left): the values that agree with each step's row
// at its kept cells and leave it at its cell. Together they are a row themselves, built anew at each node.
use crate::sig::*;
use crate::booking::*;
use crate::pair::*;
use crate::table::*;
use crate::compile::{all, has, Set};
use crate::rows::LISTW;

const LONGEST: usize = 4096;
const CUBEW: usize = (LONGEST + ROWC) * S;
const VALW: usize = LONGEST + 32;

pub(crate) struct Lent<'a> { pub q: &'a mut [u64], pub next: &'a mut [u64], pub d: &'a mut [u64], pub e: &'a mut [u64], pub v: &'a mut [u16],
    pub row: &'a mut [u8], pub kept: &'a mut [u64], pub left: &'a mut [u8] }

// The cell behind the part of cell i.
fn behind(t: &[u16], r: &[u64], i: usize) -> usize {
    let (mut need, mut a) = (1, i);
    while need > 0 { need = need - 1 + opens(t, r[a * S]); a += 1; }
    a
}
fn in_set(k: u64, i: usize) -> bool { k >> i & 1 == 1 }

// The row at the front of r with the cells of k kept, cell c (if it is not kept) without its heads, all else open. Its cells; 0 if c
// allows every head.
fn view(t: &[u16], r: &[u64], k: u64, c: usize, out: &mut [u64]) -> usize {
    let n = r[0] as usize;
    let r = &r[1..];
    let (mut i, mut m) = (0, 0);
    while i < n {
        let (tag, allowed) = (r[i * S], r[i * S + 2]);
        if in_set(k, i) {
            put(out, m, tag, 0, allowed);
            i += 1;
        } else {
            let kind = tag_kind(t, tag);
            let heads = if i == c { full(t, kind) & !allowed } else { full(t, kind) };
            if heads == 0 { return 0; }
            put(out, m, 256 + kind as u64, 0, heads);
            i = behind(t, r, i);
        }
        m += 1;
    }
    m
}
// The row of the path in q; its cells, 0 if there is none or it is longer than a booking.
fn rebuild(t: &[u16], cells: &[u64], meta: &[u16], w: &mut Lent, depth: usize) -> usize {
    put_wild(t, w.q, 0, 0, 0);
    let (mut n, mut i) = (1, 0);
    while i < depth {
        let m = view(t, &cells[meta[w.row[i] as usize * M] as usize..], w.kept[i], w.left[i] as usize, w.d);
        if m == 0 { return 0; }
        n = combine(t, w.q, n, w.d, m, w.next);
        if n == 0 || n > LONGEST { return 0; }
        let mut j = 0;
        while j < n * S { w.q[j] = w.next[j]; j += 1; }
        i += 1;
    }
    n
}
// The allowed head of kind k whose least value is shortest, the lowest of these.
fn least_head(t: &[u16], k: usize, allowed: u64) -> usize {
    let (mut best, mut size, mut i) = (0, 30, 0);
    while i < count(t, k) {
        let c = first(t, k) + i;
        if in_set(allowed, i) && ctor_size(t, c) < size { best = c; size = ctor_size(t, c); }
        i += 1;
    }
    best
}
// The shortest value of the row q of n cells; its length, 0 if it is longer than a booking.
fn shortest(t: &[u16], q: &[u64], n: usize, out: &mut [u16]) -> usize {
    let (mut len, mut i) = (0, 0);
    while i < n && len <= LONGEST {
        let tag = q[i * S];
        if named(tag) {
            out[len] = tag as u16;
            len += 1;
        } else {
            let k = (tag - 256) as usize;
            let c = if q[i * S + 2] == full(t, k) { min_ctor(t, k) } else { least_head(t, k, q[i * S + 2]) };
            out[len] = c as u16;
            len += write_min_args(t, c, &mut out[len..]);
        }
        i += 1;
    }
    if len > LONGEST { 0 } else { len }
}
// The row at the front of r takes the value v.
fn takes(t: &[u16], r: &[u64], v: &[u16]) -> bool {
    let (mut i, mut x) = (0, 0);
    while i < r[0] as usize {
        let (tag, c) = (r[1 + i * S], v[x] as usize);
        if named(tag) {
            if tag != c as u64 { return false; }
            x += 1;
        } else {
            if r[1 + i * S + 2] & bit(t, c) == 0 { return false; }
            x += part_len(t, &v[x..]);
        }
        i += 1;
    }
    true
}
fn row_meets_view(t: &[u16], r: &[u64], d: &[u64], m: usize) -> bool { meets(t, d, m, &r[1..], r[0] as usize) }
fn live_rows(t: &[u16], cells: &[u64], meta: &[u16], rows: usize, alive: &Set, q: &[u64], n: usize) -> Set {
    let mut live = [0u64; 4];
    let mut j = 0;
    while j < rows {
        if has(alive, j) && row_meets_view(t, &cells[meta[j * M] as usize..], q, n) { live[j / 64] |= 1 << (j % 64); }
        j += 1;
    }
    live
}
fn first_taker(t: &[u16], cells: &[u64], meta: &[u16], rows: usize, live: &Set, v: &[u16]) -> usize {
    let mut j = 0;
    while j < rows && !(has(live, j) && takes(t, &cells[meta[j * M] as usize..], v)) { j += 1; }
    j
}
// The cells of r at which no value of q leaves it.
fn agreed(t: &[u16], r: &[u64], q: &[u64], n: usize, d: &mut [u64]) -> u64 {
    let (mut k, mut c) = (0, 0);
    while c < r[0] as usize {
        let m = view(t, r, k, c, d);
        if m == 0 || !meets(t, q, n, d, m) { k |= 1 << c; }
        c += 1;
    }
    k
}
// 1 + the live rows that meet the branch of cell c + those of them that also meet what is left when c is kept.
fn score(t: &[u16], cells: &[u64], meta: &[u16], rows: usize, live: &Set, r: &[u64], k: u64, c: usize, d: &mut [u64], e: &mut [u64]) -> u16 {
    let m = view(t, r, k, c, d);
    if m == 0 { return 1; }
    let n = view(t, r, k | 1 << c, c, e);
    let (mut s, mut j) = (1, 0);
    while j < rows {
        if has(live, j) {
            let row = &cells[meta[j * M] as usize..];
            if row_meets_view(t, row, d, m) { s += if row_meets_view(t, row, e, n) { 2 } else { 1 }; }
        }
        j += 1;
    }
    s
}
// The cells that are not kept, but all cells above them are.
fn frontier(t: &[u16], r: &[u64], k: u64) -> u64 {
    let (mut f, mut i) = (0, 0);
    while i < r[0] as usize {
        if in_set(k, i) { i += 1; } else { f |= 1 << i; i = behind(t, &r[1..], i); }
    }
    f
}
// The cell of f with the least score; f is not empty. A score is counted once, when it is first needed.
fn choose(t: &[u16], cells: &[u64], meta: &[u16], rows: usize, live: &Set, r: &[u64], k: u64, f: u64, scores: &mut [u16; ROWC], w: &mut Lent) -> usize {
    let mut best = f.trailing_zeros() as usize;
    if f == 1 << best { return best; }
    let mut i = best;
    while i < r[0] as usize {
        if in_set(f, i) {
            if scores[i] == 0 { scores[i] = score(t, cells, meta, rows, live, r, k, i, w.d, w.e); }
            if scores[i] < scores[best] { best = i; }
        }
        i += 1;
    }
    best
}
// Length of a gap in v, 0 if the branch has none.
pub(crate) fn node(t: &[u16], cells: &[u64], meta: &[u16], rows: usize, w: &mut Lent, depth: usize, alive: &Set) -> usize {
    let n = rebuild(t, cells, meta, w, depth);
    if n == 0 { return 0; }
    let len = shortest(t, w.q, n, w.v);
    if len == 0 { return 0; }
    let mut live = live_rows(t, cells, meta, rows, alive, w.q, n);
    let x = first_taker(t, cells, meta, rows, &live, w.v);
    if x == rows { return len; }
    let r = &cells[meta[x * M] as usize..];
    let mut k = agreed(t, r, w.q, n, w.d);
    live[x / 64] &= !(1 << (x % 64));
    let mut scores = [0u16; ROWC];
    loop {
        let f = frontier(t, r, k);
        if f == 0 { return 0; }
        let c = choose(t, cells, meta, rows, &live, r, k, f, &mut scores, w);
        w.row[depth] = x as u8;
        w.kept[depth] = k;
        w.left[depth] = c as u8;
        if view(t, r, k, c, w.d) > 0 {
            let found = node(t, cells, meta, rows, w, depth + 1, &live);
            if found > 0 { return found; }
        }
        k |= 1 << c;
    }
}

#[derive(Clone, Copy, Debug, PartialEq)]
pub struct Gap { pub refusal: u16, pub len: usize }

// A lawful booking that goes to the default, in out; length 0 where there is none.
pub fn gap(sig: &[u16], tab: &[u16], out: &mut [u16]) -> Gap {
    let no = |n| Gap { refusal: n, len: 0 };
    let mut t = [0u16; SIGW];
    if !decode(sig, &mut t) { return no(1); }
    if tab.len() < TABW || out.len() < WITW { return no(2); }
    let mut cells = [0u64; ALLW];
    let mut meta = [0u16; METAW];
    let mut work = [0u64; LISTW];
    let l = load(&t, tab, &mut cells, &mut meta, &mut work);
    if !l.sound { return no(3); }
    Gap { refusal: 0, len: search(&t, &cells, &meta, l.st.rows, out) }
}
fn search(t: &[u16], cells: &[u64], meta: &[u16], rows: usize, out: &mut [u16]) -> usize {
    let (mut q, mut next, mut d, mut e, mut v) = ([0u64; CUBEW], [0u64; CUBEW], [0u64; ROWW], [0u64; ROWW], [0u16; VALW]);
    let (mut row, mut kept, mut left) = ([0u8; MAXROWS], [0u64; MAXROWS], [0u8; MAXROWS]);
    let mut w = Lent { q: &mut q, next: &mut next, d: &mut d, e: &mut e, v: &mut v, row: &mut row, kept: &mut kept, left: &mut left };
    let len = node(t, cells, meta, rows, &mut w, 0, &all(rows));
    let mut i = 0;
    while i < len { out[i] = v[i]; i += 1; }
    len
}
