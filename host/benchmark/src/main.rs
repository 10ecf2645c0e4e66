//! The calls side by side with the prototype, with a first-match list of the same rules, and a run with one pass over the
//! booking. Times are the least of many rounds, in which the parties take turns.
use bellgantlet::{raw, CHARGE, CHARGES, CHARGE_BOOKING};
use benchmark::cases::{cases, charges, least, logs, long, long_deep, long_grid, long_wide, plugged, stairs, with_levels, Case};
use benchmark::first_match;
use benchmark::instances::instances;
use std::hint::black_box;
use std::time::Instant;

type Party<'a> = (&'static str, Box<dyn FnMut() + 'a>);

/// The least time of a call of each party, in nanoseconds.
fn turns(parties: &mut [Party], rounds: usize) -> Vec<f64> {
    let each: Vec<usize> = parties
        .iter_mut()
        .map(|(_, f)| {
            f();
            let t = Instant::now();
            f();
            (2_000_000 / (t.elapsed().as_nanos() as usize + 1)).clamp(1, 20_000)
        })
        .collect();
    let mut least = vec![f64::MAX; parties.len()];
    for _ in 0..rounds {
        for (i, (_, f)) in parties.iter_mut().enumerate() {
            let t = Instant::now();
            for _ in 0..each[i] {
                f();
            }
            least[i] = least[i].min(t.elapsed().as_nanos() as f64 / each[i] as f64);
        }
    }
    least
}

fn time(ns: f64) -> String {
    match ns {
        n if n < 1e3 => format!("{n:.0} ns"),
        n if n < 1e6 => format!("{:.2} µs", n / 1e3),
        n => format!("{:.2} ms", n / 1e6),
    }
}

fn line(call: &str, case: &str, parties: &mut [Party], rounds: usize) {
    let t = turns(parties, rounds);
    let mut cells = vec![call.to_string(), case.to_string(), time(t[0])];
    for name in ["prototype", "list", "sum"] {
        match parties.iter().position(|(n, _)| *n == name) {
            Some(i) => cells.extend([time(t[i]), format!("{:.2}", t[0] / t[i])]),
            None => cells.extend(["".into(), "".into()]),
        }
    }
    println!("| {} |", cells.join(" | "));
}

fn times(rounds: usize) {
    println!("| call | table | library | prototype | ratio | first-match list | ratio | sum of words | ratio |");
    println!("|---|---|---|---|---|---|---|---|---|");
    let all = cases();
    for c in all.iter().filter(|c| !c.bookings.is_empty() && tree(c).is_some()) {
        run(c, rounds);
    }
    run(&long(), rounds);
    part(&all[0], rounds);
    part(&long(), rounds);
    part(&long_grid(), rounds);
    part(&long_wide(), rounds);
    for c in all.iter().filter(|c| !c.bookings.is_empty()) {
        decide(c, rounds);
    }
    for c in &all {
        enter(c, rounds);
    }
    for c in &all {
        withdraw(c, rounds);
    }
    for c in &all {
        set_default(c, rounds);
    }
    for c in &all {
        compile(c, rounds);
    }
    for (name, log) in &logs() {
        tally(name, log, rounds);
    }
    for c in &with_levels() {
        alone(c, rounds);
    }
    for c in [long_grid(), long_wide()] {
        let (name, mut check) = (format!("{} constructors", c.signature[0]), raw::Check::default());
        by_itself("check_begin", &name, rounds, || { black_box(raw::check_begin(&c.signature, &mut check)); });
    }
    println!("\n| checked word by word | a step | the check inside part, a word | ratio |\n|---|---|---|---|");
    for c in [long_grid(), long_wide(), long_deep()] {
        stepped(&c, rounds);
    }
    gaps(rounds);
    println!("\n| replan on | words a booking | records | library | prototype | ratio | as many runs | ratio | saved a record | no records | form of a record |");
    println!("|---|---|---|---|---|---|---|---|---|---|---|");
    for c in &plugged() {
        [1, 12, CHARGES].into_iter().for_each(|records| replan(c, records, rounds));
    }
}

/// Open charges answered again, beside as many runs, which decode the signature each time. What that saves by each record but one
/// stands beside a call without records, in which the signature is decoded and no more is done; and what a record's form takes,
/// which no run is asked for, is of a list whose last word is malformed.
fn replan(c: &Case, records: usize, rounds: usize) {
    let (sig, tree, bookings) = (&c.signature, compiled(c), &c.bookings[..records]);
    let (mut l1, mut l2) = (charges(bookings), charges(bookings));
    let (a, p) = (raw::replan(sig, &tree, &mut l1), prototype::replan::replan(sig, &tree, &mut l2));
    assert!(a.number == 0 && (a.number, a.changed) == (p.refusal, p.changed) && l1 == l2 && l1.len() == CHARGE * records);
    let mut l3 = l1.clone();
    *l3.last_mut().unwrap() = 1;
    if bookings.last().unwrap().len() == CHARGE_BOOKING {
        // no word is behind its booking
        l3[CHARGE * (records - 1) + 2] = CHARGE_BOOKING as u16 + 1;
    }
    let mut parties: Vec<Party> = vec![
        ("library", Box::new(|| { black_box(raw::replan(sig, &tree, &mut l1)); })),
        ("prototype", Box::new(|| { black_box(prototype::replan::replan(sig, &tree, &mut l2)); })),
        ("runs", Box::new(|| bookings.iter().for_each(|b| { black_box(raw::run(sig, &tree, b)); }))),
        ("no records", Box::new(|| { black_box(raw::replan(sig, &tree, &mut [])); })),
        ("form", Box::new(|| { black_box(raw::replan(sig, &tree, &mut l3)); })),
    ];
    let t = turns(&mut parties, rounds);
    let saved = if records == 1 { "".into() } else { time((t[2] - t[0]) / (records - 1) as f64) };
    let name = format!("{} | {} | {records}", c.name, words_a_booking(bookings));
    let ratios = [t[0] / t[1], t[0] / t[2]].map(|r| format!("{r:.2}"));
    let form = (t[4] - t[3]).max(0.0) / records as f64;
    let [library, prototype, runs, none, form] = [t[0], t[1], t[2], t[3], form].map(time);
    println!("| {name} | {library} | {prototype} | {} | {runs} | {} | {saved} | {none} | {form} |", ratios[0], ratios[1]);
}

/// Gap beside decide of the least booking, on the tables of the other calls and on those that are hard for it.
fn gaps(rounds: usize) {
    let (hard, refused) = instances();
    let mut rows: Vec<(String, f64)> = vec![];
    for c in cases().iter().chain(&with_levels()).chain(&[stairs()]) {
        rows.push(gap(c.name, &c.signature, &c.table(c.rules.len()), None, rounds));
    }
    for i in &hard {
        rows.push(gap(&i.name, &i.lent.signature, &i.lent.table, Some(!i.gap.is_empty()), rounds));
    }
    let most = rows.iter().map(|(_, ns)| *ns).fold(0.0, f64::max);
    println!("\n| gap on | rules | words shown | gap | decide | ratio | |\n|---|---|---|---|---|---|---|");
    for (cells, ns) in rows {
        println!("| {cells} | {} |", if ns == most { "slowest" } else { "" });
    }
    for (name, n) in refused {
        println!("{name} is left out: a rule is refused with {n}");
    }
}

/// The cells of a table and the time of gap in nanoseconds; with what is known of a gap.
fn gap(name: &str, sig: &[u16], table: &[u16], known: Option<bool>, rounds: usize) -> (String, f64) {
    let (mut witness, least) = (vec![0; 4096], least(sig));
    let shown = raw::gap(sig, table, &mut witness);
    let answer = raw::decide(sig, table, &witness[..shown.length]);
    assert!(shown.number == 0 && known.is_none_or(|is| is == (shown.length > 0)), "{name}");
    assert!(shown.length == 0 || (answer.number, answer.rule) == (0, 0), "{name}");
    let mut parties: Vec<Party> = vec![
        ("gap", Box::new(|| { black_box(raw::gap(sig, table, &mut witness)); })),
        ("decide", Box::new(|| { black_box(raw::decide(sig, table, &least)); })),
    ];
    let t = turns(&mut parties, rounds);
    let times = format!("{:.1} µs | {:.1} µs | {:.2}", t[0] / 1e3, t[1] / 1e3, t[0] / t[1]);
    (format!("{name} | {} | {} | {times}", table[0], shown.length), t[0])
}

/// A step beside a word of the check inside part, which is without what part takes of the least booking. The part is that of
/// the last place, as the end of a longer one would be looked for in a second walk.
fn stepped(c: &Case, rounds: usize) {
    let (sig, b) = (&c.signature, &c.bookings[0]);
    let least = least(sig);
    let mut begun = raw::Check::default();
    assert_eq!(raw::check_begin(sig, &mut begun), 0);
    let mut check = begun.clone();
    let mut parties: Vec<Party> = vec![
        ("steps", Box::new(|| {
            check.words = begun.words;
            b.iter().for_each(|w| { black_box(raw::check_step(sig, &mut check, *w)); });
            assert_eq!(raw::check_end(&check), 0);
        })),
        ("part", Box::new(|| assert_eq!(black_box(raw::part(sig, b, b.len() - 1)).number, 0))),
        ("least", Box::new(|| assert_eq!(black_box(raw::part(sig, &least, least.len() - 1)).number, 0))),
    ];
    let t = turns(&mut parties, rounds);
    let (step, inside) = (t[0] / b.len() as f64, (t[1] - t[2]) / (b.len() - least.len()) as f64);
    println!("| {} | {step:.2} ns | {inside:.2} ns | {:.2} |", c.name, step / inside);
}

/// The tree of a table, where it is not too large.
fn tree(c: &Case) -> Option<Vec<u16>> {
    let mut space = vec![0; 32768];
    let t = raw::compile(&c.signature, &c.table(c.rules.len()), &mut space);
    assert!(t.number == 0 || t.number == 14, "{}", c.name);
    space.truncate(t.length);
    (t.number == 0).then_some(space)
}

fn compiled(c: &Case) -> Vec<u16> {
    tree(c).expect(c.name)
}

fn words_a_booking(bookings: &[Vec<u16>]) -> usize {
    bookings.iter().map(|b| b.len()).sum::<usize>() / bookings.len()
}

/// One booking after the other, again and again.
fn turning<'a>(c: &'a Case) -> impl FnMut() -> &'a [u16] + Clone {
    let mut i = 0;
    move || {
        i = (i + 1) % c.bookings.len();
        &c.bookings[i][..]
    }
}

fn run(c: &Case, rounds: usize) {
    let (sig, table, tree) = (&c.signature, c.table(c.rules.len()), compiled(c));
    for (b, (rule, ..)) in c.bookings.iter().zip(&c.rules) {
        let (a, p, l) = (raw::run(sig, &tree, b), prototype::run::run(sig, &tree, b), first_match::answer(sig, &table, b));
        assert!(a.number == 0 && a.rule == *rule && (a.rule, a.places) == (p.rule, p.places) && (a.rule, a.places) == (l.rule, l.places));
    }
    let name = format!("{}, {} words a booking", c.name, words_a_booking(&c.bookings));
    let mut next = turning(c);
    let (mut next2, mut next3, mut next4) = (next.clone(), next.clone(), next.clone());
    let mut parties: Vec<Party> = vec![
        ("library", Box::new(|| { black_box(raw::run(sig, &tree, next())); })),
        ("prototype", Box::new(|| { black_box(prototype::run::run(sig, &tree, next2())); })),
        ("list", Box::new(|| { black_box(first_match::answer(sig, &table, next3())); })),
        ("sum", Box::new(|| { black_box(next4().iter().map(|w| *w as u64).sum::<u64>()); })),
    ];
    line("run", &name, &mut parties, rounds);
}

fn part(c: &Case, rounds: usize) {
    let (sig, b) = (&c.signature, &c.bookings[0]);
    let p = raw::part(sig, b, 1);
    assert!(p.number == 0 && &b[p.start..p.start + p.length] == prototype::booking::part_at(sig, b, 1));
    let mut parties: Vec<Party> = vec![
        ("library", Box::new(|| { black_box(raw::part(sig, b, 1)); })),
        ("prototype", Box::new(|| { black_box(prototype::booking::part_at(sig, b, 1)); })),
        ("sum", Box::new(|| { black_box(b.iter().map(|w| *w as u64).sum::<u64>()); })),
    ];
    let constructors = format!("{} constructors", sig[0]);
    line("part", &format!("{constructors}, a booking of {} words", b.len()), &mut parties, rounds);
}

fn decide(c: &Case, rounds: usize) {
    let (sig, table) = (&c.signature, c.table(c.rules.len()));
    for (b, (rule, ..)) in c.bookings.iter().zip(&c.rules) {
        let (a, p) = (raw::decide(sig, &table, b), prototype::decide::decide(sig, &table, b));
        assert!(a.number == 0 && a.rule == *rule && (a.rule, a.places) == (p.rule, p.places));
    }
    let mut next = turning(c);
    let (mut next2, mut next3) = (next.clone(), next.clone());
    let mut parties: Vec<Party> = vec![
        ("library", Box::new(|| { black_box(raw::decide(sig, &table, next())); })),
        ("prototype", Box::new(|| { black_box(prototype::decide::decide(sig, &table, next2())); })),
        ("list", Box::new(|| { black_box(first_match::answer(sig, &table, next3())); })),
    ];
    line("decide", c.name, &mut parties, rounds);
}

/// The last rule entered into a table that has all others.
fn enter(c: &Case, rounds: usize) {
    let (sig, before) = (&c.signature, c.table(c.rules.len() - 1));
    let (number, plan, pattern) = c.rules.last().unwrap();
    let (mut t1, mut t2, mut t3) = (before.clone(), before.clone(), before.clone());
    let (mut w1, mut w2) = (vec![0; 4096], vec![0; 4096]);
    let mut parties: Vec<Party> = vec![
        ("library", Box::new(|| {
            t1.copy_from_slice(&before);
            assert_eq!(raw::enter(sig, *number, *plan, pattern, &mut t1, &mut w1).number, 0);
        })),
        ("prototype", Box::new(|| {
            t2.copy_from_slice(&before);
            assert_eq!(prototype::table::enter(sig, &mut t2, &mut w2, *number, *plan, pattern).refusal, 0);
        })),
        ("list", Box::new(|| {
            t3.copy_from_slice(&before);
            assert_eq!(first_match::enter(sig, &mut t3, *number, *plan, pattern), 0);
        })),
    ];
    line("enter", c.name, &mut parties, rounds);
    drop(parties);
    assert!(t1 == t2 && t1 == t3 && t1 == c.table(c.rules.len()));
}

/// The first rule taken out: all others move.
fn withdraw(c: &Case, rounds: usize) {
    let (sig, before) = (&c.signature, c.table(c.rules.len()));
    let number = c.rules[0].0;
    let (mut t1, mut t2, mut t3) = (before.clone(), before.clone(), before.clone());
    let mut parties: Vec<Party> = vec![
        ("library", Box::new(|| {
            t1.copy_from_slice(&before);
            assert_eq!(raw::withdraw(sig, number, &mut t1), 0);
        })),
        ("prototype", Box::new(|| {
            t2.copy_from_slice(&before);
            assert_eq!(prototype::table::withdraw(sig, &mut t2, number), 0);
        })),
        ("list", Box::new(|| {
            t3.copy_from_slice(&before);
            assert_eq!(first_match::withdraw(&mut t3, number), 0);
        })),
    ];
    line("withdraw", c.name, &mut parties, rounds);
    drop(parties);
    assert!(t1 == t2 && t1 == t3);
}

/// The default plan of a table with all rules.
fn set_default(c: &Case, rounds: usize) {
    let (sig, before) = (&c.signature, c.table(c.rules.len()));
    let (mut t1, mut t2) = (before.clone(), before.clone());
    let mut parties: Vec<Party> = vec![
        ("library", Box::new(|| assert_eq!(raw::set_default(sig, 2, &mut t1), 0))),
        ("prototype", Box::new(|| assert_eq!(prototype::table::set_default(sig, &mut t2, 2), 0))),
    ];
    line("set_default", c.name, &mut parties, rounds);
    drop(parties);
    assert!(t1 == t2 && t1[1] == 2 && t1[2..] == before[2..]);
}

fn compile(c: &Case, rounds: usize) {
    let (sig, table) = (&c.signature, c.table(c.rules.len()));
    let (mut s1, mut s2) = (vec![0; 32768], vec![0; 32768]);
    let (a, p) = (raw::compile(sig, &table, &mut s1), prototype::compile::compile(sig, &table, &mut s2));
    assert!((a.number, a.length) == (p.refusal, p.len) && s1 == s2);
    let name = match a.number {
        0 => format!("{}, tree of {} words", c.name, a.length),
        n => format!("{}, refused with {n}", c.name),
    };
    let mut parties: Vec<Party> = vec![
        ("library", Box::new(|| { black_box(raw::compile(sig, &table, &mut s1)); })),
        ("prototype", Box::new(|| { black_box(prototype::compile::compile(sig, &table, &mut s2)); })),
    ];
    line("compile", &name, &mut parties, rounds);
}

fn tally(name: &str, log: &[u16], rounds: usize) {
    let (a, p) = (raw::tally(log), prototype::tally::tally(log));
    assert!(a.number == 0 && (a.number, a.total, a.counts) == (p.refusal, p.total, p.counts));
    let mut parties: Vec<Party> = vec![
        ("library", Box::new(|| { black_box(raw::tally(black_box(log))); })),
        ("prototype", Box::new(|| { black_box(prototype::tally::tally(black_box(log))); })),
        ("sum", Box::new(|| { black_box(black_box(log).iter().map(|w| *w as u64).sum::<u64>()); })),
    ];
    line("tally", name, &mut parties, rounds);
}

/// The calls on a table that only the library knows.
fn alone(c: &Case, rounds: usize) {
    let (sig, n) = (&c.signature, c.rules.len());
    let (table, fewer) = (c.table(n), c.table(n - 1));
    let (number, plan, pattern) = c.rules.last().unwrap();
    let (mut t, mut space, mut witness) = (table.clone(), vec![0; 32768], vec![0; 4096]);
    let tree = raw::compile(sig, &table, &mut space);
    for (b, (rule, ..)) in c.bookings.iter().zip(&c.rules) {
        assert_eq!(raw::decide(sig, &table, b).rule, *rule);
        assert!(tree.number != 0 || raw::run(sig, &space, b).rule == *rule);
    }
    let (mut next, mut again) = (turning(c), turning(c));
    if tree.number == 0 {
        by_itself("run", c.name, rounds, || { black_box(raw::run(sig, &space, next())); });
    }
    by_itself("decide", c.name, rounds, || { black_box(raw::decide(sig, &table, again())); });
    by_itself("enter", c.name, rounds, || {
        t.copy_from_slice(&fewer);
        assert_eq!(raw::enter(sig, *number, *plan, pattern, &mut t, &mut witness).number, 0);
    });
    by_itself("withdraw", c.name, rounds, || {
        t.copy_from_slice(&table);
        assert_eq!(raw::withdraw(sig, c.rules[0].0, &mut t), 0);
    });
    t.copy_from_slice(&table);
    by_itself("set_default", c.name, rounds, || assert_eq!(raw::set_default(sig, 2, &mut t), 0));
    let name = match tree.number {
        0 => format!("{}, tree of {} words", c.name, tree.length),
        n => format!("{}, refused with {n}", c.name),
    };
    by_itself("compile", &name, rounds, || { black_box(raw::compile(sig, &table, &mut space)); });
}

fn by_itself(call: &str, case: &str, rounds: usize, f: impl FnMut()) {
    line(call, case, &mut [("library", Box::new(f))], rounds);
}

/// One call again and again, for a profiler: `benchmark only run "64 rules" 1000`.
fn only(call: &str, case: &str, times: usize) {
    let all = cases().into_iter().chain(with_levels()).chain([stairs()]).chain(plugged());
    let c = all.into_iter().find(|c| c.name == case).expect("a case");
    let (sig, table, n) = (&c.signature, c.table(c.rules.len()), c.rules.len());
    let (number, plan, pattern) = c.rules.last().unwrap();
    let mut space = vec![0; 32768];
    let mut witness = vec![0; 4096];
    let tree = if call.ends_with("run") || call == "replan" { compiled(&c) } else { vec![] };
    let mut list = charges(&c.bookings);
    let mut next = turning(&c);
    for _ in 0..times {
        match call {
            "run" => drop(black_box(raw::run(sig, &tree, next()))),
            "decide" => drop(black_box(raw::decide(sig, &table, next()))),
            "enter" => drop(black_box(raw::enter(sig, *number, *plan, pattern, &mut c.table(n - 1), &mut witness))),
            "withdraw" => drop(black_box(raw::withdraw(sig, *number, &mut table.clone()))),
            "set_default" => drop(black_box(raw::set_default(sig, 2, &mut table.clone()))),
            "gap" => drop(black_box(raw::gap(sig, &table, &mut witness))),
            "compile" => drop(black_box(raw::compile(sig, &table, &mut space))),
            "replan" => drop(black_box(raw::replan(sig, &tree, &mut list))),
            "prototype-run" => drop(black_box(prototype::run::run(sig, &tree, next()))),
            _ => panic!("run, decide, enter, withdraw, set_default, gap, compile or replan"),
        }
    }
}

fn main() {
    let arguments: Vec<String> = std::env::args().collect();
    if arguments.get(1).is_some_and(|a| a == "only") {
        return only(&arguments[2], &arguments[3], arguments[4].parse().unwrap());
    }
    let rounds = arguments.get(1).map_or(150, |r| r.parse().unwrap());
    // the calls' own stack, and the prototype's
    std::thread::Builder::new().stack_size(64 << 20).spawn(move || times(rounds)).unwrap().join().unwrap();
}
