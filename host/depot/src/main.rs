//! A depot: planners enter and withdraw rules while bookings are answered. A new tree is compiled beside the old one, which
//! answers until the new one is there.
mod names;

use bellgantlet::*;
use names::Names;
use std::collections::BTreeMap;
use std::thread::{Builder, JoinHandle};

struct Depot {
    names: Names,
    table: Table,
    tree: Tree,
    /// How often rules or the default plan have changed, and at which change the tree was compiled.
    change: u32,
    compiled: u32,
    /// The names of each rule's variables: of the rules in the table, and of those in the tree.
    variables: Variables,
    compiled_variables: Variables,
    /// The rules of the day's answers, 0 for the default.
    log: Vec<u16>,
    /// The open charges, and the bus of each.
    charges: OpenCharges,
    buses: Vec<&'static str>,
}

/// Bytes of stack for the thread itself.
const THREAD: usize = 64 << 10;

type Variables = BTreeMap<u16, Vec<String>>;

type Compiling = (u32, Variables, JoinHandle<Result<Tree, Refusal>>);

impl Depot {
    fn new(names: Names) -> Result<Depot, Refusal> {
        let table = Table::new(&names.signature()?);
        let tree = table.compile()?;
        let (variables, compiled_variables) = (Variables::new(), Variables::new());
        let (log, charges, buses) = (vec![], OpenCharges::new(), vec![]);
        Ok(Depot { names, table, tree, change: 0, compiled: 0, variables, compiled_variables, log, charges, buses })
    }

    fn enter(&mut self, planner: &str, number: u16, plan: u16, text: &str) {
        println!("{planner} enters rule {number}, plan {plan}: {text}");
        let (number, written) = match (RuleNumber::new(number), self.names.pattern(text)) {
            (Ok(n), Ok(w)) => (n, w),
            (Err(r), _) => return println!("    refused: {r}"),
            (_, Err(e)) => return println!("    not understood: {e}"),
        };
        match self.table.enter(number, plan, &written.words) {
            Ok(()) => {
                self.change += 1;
                self.variables.insert(number.get(), written.variables);
                println!("    entered");
            }
            Err(NotEntered::Shares { rule, booking }) => {
                println!("    refused: rule {rule} takes it too, for instance {}", self.names.show(&booking));
            }
            Err(e) => println!("    refused: {e}"),
        }
    }

    fn withdraw(&mut self, planner: &str, number: u16) {
        println!("{planner} withdraws rule {number}");
        match RuleNumber::new(number).and_then(|n| self.table.withdraw(n)) {
            Ok(()) => {
                self.change += 1;
                println!("    withdrawn");
            }
            Err(r) => println!("    refused: {r}"),
        }
    }

    fn set_default(&mut self, planner: &str, plan: u16) {
        println!("{planner} sets the default plan {plan}, which was {}", self.table.default_plan());
        match self.table.set_default(plan) {
            Ok(()) => {
                self.change += 1;
                println!("    set");
            }
            Err(r) => println!("    refused: {r}"),
        }
    }

    /// A booking that no rule takes, by names.
    fn gap(&self) -> Option<String> {
        let gap = self.table.gap().unwrap().map(|words| self.names.show(&words));
        match &gap {
            Some(text) => println!("-- a gap: no rule takes {text}"),
            None => println!("-- no gap: every booking is taken by a rule"),
        }
        gap
    }

    /// Compiles a copy of the table on a thread of its own, which has the stack for it.
    fn compile(&self) -> Compiling {
        println!("-- compiling begins; bookings go on by the tree of change {}", self.compiled);
        let table = self.table.clone();
        (self.change, self.variables.clone(), Builder::new().stack_size(stack::COMPILE + THREAD).spawn(move || table.compile()).unwrap())
    }

    fn adopt(&mut self, (change, variables, handle): Compiling) {
        match handle.join().unwrap() {
            Ok(tree) => {
                println!("-- the tree of change {change} is there: {} words", tree.words().len());
                (self.tree, self.compiled, self.compiled_variables) = (tree, change, variables);
                self.replan();
            }
            Err(r) => println!("-- no new tree: {r}"),
        }
    }

    /// The new tree answers the bookings of the buses on the plug again; a bus is told where its rule or its plan is another.
    fn replan(&mut self) {
        if self.charges.is_empty() {
            return;
        }
        let before = self.charges.clone();
        match self.tree.replan(&mut self.charges) {
            Ok(changed) => println!("-- open charges: {}, plans changed: {changed}", self.charges.len()),
            Err(r) => return println!("-- the open charges stay as they are: {r}"),
        }
        for ((bus, old), new) in self.buses.iter().zip(before.iter()).zip(self.charges.iter()).filter(|((_, old), new)| old != new) {
            println!("    {bus}, {}: {old} becomes {new}", self.names.show(new.booking()));
        }
    }

    /// A bus comes to the plug with its booking.
    fn plug_in(&mut self, bus: &'static str, text: &str) {
        println!("{bus} plugs in");
        let Some((answer, words)) = self.answer(text) else { return };
        match self.charges.plug_in(&answer, &words) {
            Ok(()) => self.buses.push(bus),
            Err(e) => println!("    not plugged in: {e}"),
        }
    }

    fn unplug(&mut self, bus: &str) {
        println!("{bus} leaves");
        if let Some(i) = self.buses.iter().position(|b| *b == bus) {
            self.buses.remove(i);
            self.charges.unplug(i);
        }
    }

    /// What a booking gets, and its words; none where it is not understood, or refused.
    fn answer(&mut self, text: &str) -> Option<(Answer, Vec<u16>)> {
        let words = match self.names.booking(text) {
            Ok(w) => w,
            Err(e) => {
                println!("{text}: not understood: {e}");
                return None;
            }
        };
        let answer = self.tree.run(&words);
        self.log.extend(answer.iter().map(Answer::log_entry));
        match answer {
            Err(r) => println!("{text}: {r}"),
            Ok(Answer::Default { plan }) => println!("{text}: no rule, the default plan {plan}"),
            Ok(Answer::Rule { number, plan, places }) => {
                let booking = self.table.signature().booking(&words).unwrap();
                let bound: Vec<String> = places
                    .iter()
                    .map(|(x, place)| {
                        let part = booking.part(place).unwrap();
                        format!(", {} is {}", self.compiled_variables[&number.get()][x as usize], self.names.show(part))
                    })
                    .collect();
                println!("{text}: rule {number}, plan {plan}{}", bound.concat());
            }
        }
        if self.compiled == self.change {
            assert_eq!(answer, self.table.decide(&words));
        }
        Some((answer.ok()?, words))
    }

    /// A booking that arrives in pieces: checked word by word, answered when it is whole, and given up at the first wrong word.
    fn receive(&mut self, pieces: &[&[u16]]) {
        let mut checker = Checker::new(self.table.signature());
        for piece in pieces {
            println!("    {piece:?} arrives");
            if piece.iter().any(|word| checker.push(*word).is_err()) {
                break;
            }
        }
        match (checker.went_wrong_at(), checker.finish()) {
            (None, Ok(())) => {
                self.answer(&self.names.show(&pieces.concat()));
            }
            (None, Err(_)) => println!("it is not whole"),
            (Some(at), _) => println!("wrong at index {at}, the word {}: no more is awaited", pieces.concat()[at]),
        }
    }

    /// The day's tally; the next day begins with an empty log.
    fn close(&mut self) {
        match tally(&std::mem::take(&mut self.log)) {
            Ok(tally) => println!("-- closing time, bookings per rule:\n{tally}"),
            Err(r) => println!("-- closing time, no tally: {r}"),
        }
    }
}

fn main() -> Result<(), Refusal> {
    let names = Names::new(&[
        "booking: booking(bus,bay,energy,charge)",
        "bus: articulated midi solo trolley",
        "bay: hall(slot) yard(slot) street",
        "slot: one two three four",
        "energy: low half high by(hour,energy)",
        "hour: five six seven",
        "charge: 0..100",
    ]);
    let mut depot = Depot::new(names)?;
    let asked = ["booking(midi, hall(two), by(five, high), 60)", "booking(articulated, yard(one), high, 35)", "booking(solo, street, low, 12)"];

    depot.enter("Ada", 10, 3, "booking(articulated, ?bay, high | by(_, high), _)");
    depot.enter("Ada", 11, 4, "booking(midi | solo, hall(?slot), by(?hour, !low), _)");
    let first = depot.compile();
    asked.iter().for_each(|b| { depot.answer(b); });
    depot.adopt(first);
    asked.iter().for_each(|b| { depot.answer(b); });

    // buses on the plug: each new tree answers their bookings again
    depot.plug_in("bus 301", "booking(articulated, yard(two), high, 20)");
    depot.plug_in("bus 114", "booking(midi, hall(one), by(six, half), 55)");
    depot.plug_in("bus 208", "booking(solo, street, low, 12)");
    depot.plug_in("bus 302", "booking(articulated, hall(three), by(seven, high), 48)");

    depot.enter("Bo", 20, 7, "booking(_, yard(_), high, _)");
    depot.enter("Bo", 20, 7, "booking(!articulated, yard(_), high, _)");
    depot.enter("Bo", 21, 8, "booking(?bus, ?bus, _, _)");
    depot.enter("Bo", 22, 8, "booking(trolley, _, ?e | ?e, _)");
    depot.enter("Bo", 1000, 8, "booking(trolley, _, _, _)");
    depot.enter("Bo", 11, 8, "booking(trolley, _, _, _)");
    depot.enter("Bo", 23, 9, "booking(trolley, !street, _, _) & !booking(_, yard(_), high, _)");
    // rules on the state of charge: nearly empty, and what is left of the street
    depot.enter("Cy", 30, 12, "booking(midi | solo, street, !high, 0..20)");
    depot.enter("Cy", 31, 13, "booking(solo, street, low, 15..60)");
    depot.enter("Cy", 31, 13, "booking(solo, street, low, ?charge & 21..60)");
    depot.enter("Cy", 32, 14, "booking(solo, street, low, 100..61)");
    depot.withdraw("Ada", 10);
    depot.withdraw("Ada", 10);
    let second = depot.compile();
    println!("-- rule 10 is withdrawn, and still answers until then:");
    asked.iter().for_each(|b| { depot.answer(b); });
    depot.adopt(second);
    asked.iter().for_each(|b| { depot.answer(b); });
    depot.answer("booking(solo, yard(three), high, 100)");
    depot.answer("booking(trolley, hall(four), by(six, by(seven, half)), 0)");
    depot.answer("booking(solo, street, low, 20)");
    depot.answer("booking(solo, street, low, 21)");
    depot.answer("booking(solo, street, low, 61)");
    depot.answer("booking(solo, street, low, 101)");
    depot.answer("booking(trolley, seven, low, 50)");

    depot.unplug("bus 302");
    // a booking that no rule takes
    let left = "booking(solo, street, low, 61)";
    depot.set_default("Cy", 5);
    let third = depot.compile();
    depot.answer(left);
    depot.adopt(third);
    depot.answer(left);

    // rules for all that is left but this booking, and one for the gap that is shown
    depot.enter("Di", 40, 20, "booking(articulated, _, _, _) | booking(trolley, street, _, _)");
    depot.enter("Di", 41, 21, "booking(midi | solo, hall(_), !by(_, !low), _) | booking(midi | solo, yard(_), !high, _)");
    depot.enter("Di", 42, 22, "booking(midi | solo, street, high, _) | booking(midi, street, !high, 21..100)");
    depot.enter("Di", 43, 23, "booking(solo, street, half | by(_, _), 21..100) | booking(solo, street, low, 62..100)");
    if let Some(text) = depot.gap() {
        depot.enter("Di", 44, 24, &text);
        depot.gap();
    }
    let fourth = depot.compile();
    depot.adopt(fourth);
    depot.answer(left);

    println!("-- bookings arrive in pieces:");
    depot.receive(&[&[0, 2, 5], &[9], &[15, 16, 14, 1060]]);
    depot.receive(&[&[0, 4, 18], &[12, 1050]]);
    depot.receive(&[&[0, 4, 7, 12]]);
    depot.close();

    println!("-- rules in force:");
    for (number, plan, pattern) in depot.table.rules() {
        let shown = depot.names.show_pattern(pattern, &depot.variables[&number.get()]);
        println!("    rule {number}, plan {plan}: {shown}");
    }
    println!("    no rule: plan {}", depot.table.default_plan());
    let stored = depot.table.words().to_vec();
    let again = Table::from_words(depot.table.signature(), &stored)?;
    println!("-- the table stored and read again is the same: {}", again == depot.table);
    let mut bad = stored.clone();
    // the number of the second rule in place of the first one's
    bad[2] = bad[5 + bad[4] as usize];
    println!("-- with a word changed: {}", Table::from_words(depot.table.signature(), &bad).unwrap_err());
    Ok(())
}
