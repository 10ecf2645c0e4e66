//! What the calls take of the stack.
//!
//!     stacks          the peak of each call at each kind of input, and the worst beside what is documented
//!     stacks check    each call at all these inputs on a thread of just the documented stack: one that is too small ends the program.
//!                     Where a thread cannot be so small, the call's peak is held to what is documented
//!     stacks search N the deepest of N random nests for each call, to find inputs that are worse
use bellgantlet::{stack, tally, Answer, Checker, OpenCharges, RuleNumber, Signature, Table, CHARGES};
use benchmark::calls::CALLS;
use benchmark::cases::cases;
use benchmark::deep::rows;
use benchmark::search::deepest;
use benchmark::stack::peak;
use std::hint::black_box;
use std::io::Write;

fn kb(bytes: usize) -> String {
    format!("{} KB", bytes.div_ceil(1024))
}

/// 860160 is 860,160.
fn written(n: usize) -> String {
    if n < 1000 { n.to_string() } else { format!("{},{:03}", written(n / 1000), n % 1000) }
}

fn peaks() {
    let names: Vec<&str> = CALLS.iter().map(|(c, _)| *c).collect();
    println!("| inputs | {} |", names.join(" | "));
    println!("|---|{}", "---|".repeat(CALLS.len()));
    let mut worst = [(0, ""); CALLS.len()];
    for row in rows() {
        let mut most = [0; CALLS.len()];
        for (call, mut lent) in row.inputs {
            let i = names.iter().position(|n| *n == call).unwrap();
            most[i] = most[i].max(peak(|| { black_box(lent.make(call)); }));
        }
        let shown: Vec<String> = most.iter().map(|b| if *b == 0 { "".into() } else { kb(*b) }).collect();
        println!("| {} | {} |", row.name, shown.join(" | "));
        for (w, m) in worst.iter_mut().zip(most) {
            if m > w.0 {
                *w = (m, row.name);
            }
        }
    }
    println!("\n| call | worst | at | documented | margin |\n|---|---|---|---|---|");
    for ((call, documented), (bytes, row)) in CALLS.iter().zip(worst) {
        println!("| {call} | {} | {row} | {} | {} % |", written(bytes), written(*documented), documented * 100 / bytes - 100);
    }
    println!("\nThe prototype's compile:");
    for c in cases() {
        let (table, mut space) = (c.table(c.rules.len()), vec![0; 32768]);
        println!("| {} | {} |", c.name, kb(peak(|| { black_box(prototype::compile::compile(&c.signature, &table, &mut space)); })));
    }
}

/// On a thread of just so many bytes, its own needs included.
fn on<T: Send>(bytes: usize, f: impl FnOnce() -> T + Send) -> T {
    std::thread::scope(|s| std::thread::Builder::new().stack_size(bytes).spawn_scoped(s, f).unwrap().join().unwrap())
}

/// A thread has so many bytes at least.
const LEAST: usize = 64 << 10;

fn check() {
    let all = rows();
    for (call, bytes) in CALLS {
        print!("{call} on {bytes} bytes of stack: ");
        std::io::stdout().flush().ok();
        let mut n = 0;
        for row in &all {
            for (_, lent) in row.inputs.iter().filter(|(c, _)| *c == call) {
                let mut lent = lent.clone();
                on(bytes, || lent.make(call));
                n += 1;
                assert!(bytes >= LEAST || peak(|| { black_box(lent.make(call)); }) <= bytes, "{}", row.name);
            }
        }
        println!("{n} inputs");
    }
    wrapper();
}

/// As many open charges of one booking as there may be.
fn plugged_in(answer: &Answer, booking: &[u16]) -> OpenCharges {
    let mut charges = OpenCharges::new();
    (0..CHARGES).for_each(|_| charges.plug_in(answer, booking).unwrap());
    charges
}

/// The wrapper's methods at the deepest pattern, and compile at the deepest table.
fn wrapper() {
    let signature = Signature::new(&[2, 0, 1, 0, 0, 0]).unwrap();
    let chain = [vec![0; 63], vec![1]].concat();
    let mut table = Table::new(&signature);
    let number = RuleNumber::new(7).unwrap();
    on(stack::ENTER, || table.enter(number, 40, &chain)).unwrap();
    on(stack::ENTER, || table.enter(RuleNumber::new(8).unwrap(), 40, &chain)).unwrap_err();
    assert_eq!(on(stack::DECIDE, || table.decide(&chain)).unwrap().plan(), 40);
    assert!(on(stack::GAP, || table.gap()).unwrap().is_some());
    let tree = on(stack::COMPILE, || table.compile()).unwrap();
    assert_eq!(on(stack::RUN, || tree.run(&chain)).unwrap().plan(), 40);
    on(stack::SET_DEFAULT, || table.set_default(2)).unwrap();
    on(stack::WITHDRAW, || table.withdraw(number)).unwrap();
    assert_eq!(on(stack::DECIDE, || table.decide(&chain)).unwrap().rule(), None);
    let mut checker = on(stack::CHECK_BEGIN, || Checker::new(&signature));
    on(stack::CHECK_STEP, || chain.iter().try_for_each(|w| checker.push(*w))).unwrap();
    on(stack::CHECK_END, || checker.finish()).unwrap();
    let log = vec![tree.run(&chain).as_ref().map(Answer::log_entry).unwrap(); 4096];
    assert_eq!(on(stack::TALLY, || tally(&log)).unwrap().count(Some(number)), 4096);
    let charges = plugged_in(&tree.run(&chain[3..]).unwrap(), &chain[3..]);
    let mut charges = on(stack::REPLAN, || OpenCharges::from_words(charges.words())).unwrap();
    let again = on(stack::COMPILE, || table.compile()).unwrap();
    assert_eq!(on(stack::REPLAN, || again.replan(&mut charges)), Ok(CHARGES));
    let deepest = cases().pop().unwrap();
    let signature = Signature::new(&deepest.signature).unwrap();
    let table = Table::from_words(&signature, &deepest.table(64)).unwrap();
    on(stack::COMPILE, || table.compile()).unwrap_err();
    assert!(on(stack::GAP, || table.gap()).unwrap().is_some());
    println!("the wrapper's methods on the same stacks");
}

fn search(rounds: usize) {
    for call in ["enter", "withdraw", "set_default", "decide", "gap", "compile"] {
        let (bytes, pattern) = deepest(call, rounds);
        println!("{call}: {bytes} with {pattern:?}");
    }
}

fn main() {
    let arguments: Vec<String> = std::env::args().collect();
    let work = || match arguments.get(1).map(|a| &a[..]) {
        None => peaks(),
        Some("check") => check(),
        Some("search") => search(arguments[2].parse().unwrap()),
        Some(other) => panic!("check or search, not {other}"),
    };
    on(64 << 20, work);
}
