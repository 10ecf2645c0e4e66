//! Case T of 01 through the wrapper, and what each type lets through.
use bellgantlet::*;

const T: [u16; 15] = [6, 0, 2, 1, 2, 1, 0, 1, 0, 1, 0, 2, 0, 2, 0];

/// An "or" of 65 wildcards would be too long; an "and" of "or"s of 5 and 13 weighs 65.
const HEAVY: [u16; 35] = {
    let mut words = [258; 35];
    words[0] = 256;
    let mut i = 1;
    while i < 34 {
        if i < 9 || i > 9 {
            words[i] = 257;
        }
        i += if i == 9 { 1 } else { 2 };
    }
    words
};

fn rule(n: u16) -> RuleNumber {
    RuleNumber::new(n).unwrap()
}

fn table() -> Table {
    let mut table = Table::new(&Signature::new(&T).unwrap());
    table.enter(rule(7), 40, &[0, 1, 261]).unwrap();
    table.enter(rule(9), 41, &[0, 260, 1, 5]).unwrap();
    table
}

/// A test's thread has 2 MB, and needs some of them itself.
fn with_stack(f: fn()) {
    std::thread::Builder::new().stack_size(stack::ANY + (64 << 10)).spawn(f).unwrap().join().unwrap();
}

#[test]
fn refusals_have_their_numbers() {
    // 17 is of texts alone
    let numbers: Vec<u16> = (1..=16).chain([18, 19, 20]).collect();
    assert_eq!(Refusal::ALL.iter().map(|r| r.number()).collect::<Vec<_>>(), numbers);
    for r in Refusal::ALL {
        assert!(r.to_string().ends_with(&format!("({})", r.number())));
    }
}

#[test]
fn case_t() {
    with_stack(case_t_here);
}

fn case_t_here() {
    let mut table = table();
    let tree = table.compile().unwrap();
    assert_eq!(tree.words().len(), 39);
    let bookings: [&[u16]; 4] = [&[0, 1, 5], &[0, 2, 5], &[0, 3, 4], &[0, 1]];
    for b in bookings {
        assert_eq!(tree.run(b), table.decide(b));
    }
    let Answer::Rule { number, plan, places } = tree.run(&[0, 1, 5]).unwrap() else { panic!() };
    assert_eq!((number.get(), plan, places.of(0), places.of(1), places.iter().count()), (7, 40, Some(2), None, 1));
    assert_eq!(tree.run(&[0, 3, 4]), Ok(Answer::Default { plan: 1 }));
    assert_eq!(tree.run(&[0, 1, 5]).unwrap().to_string(), "rule 7, plan 40, variable 0 at 2");
    assert_eq!(tree.run(&[0, 3, 4]).unwrap().to_string(), "no rule, plan 1");
    assert_eq!(tree.run(&[0, 1]), Err(Refusal::BookingUnlawful));
    assert_eq!(Tree::from_words(table.signature(), &[]).run(&[0, 1, 5]), Err(Refusal::TreeBroken));
    // a leaf without a rule has its plan in the slice
    assert_eq!(Tree::from_words(table.signature(), &[0]).run(&[0, 1, 5]), Err(Refusal::TreeBroken));
    assert_eq!(Tree::from_words(table.signature(), &[0, 7]).run(&[0, 1, 5]), Ok(Answer::Default { plan: 7 }));

    let shares = table.enter(rule(8), 1, &[0, 258, 4]);
    assert_eq!(shares, Err(NotEntered::Shares { rule: rule(7), booking: vec![0, 1, 4] }));
    assert_eq!(shares.unwrap_err().to_string(), "The rule shares a booking with a held rule. (12): rule 7, booking [0, 1, 4]");
    assert_eq!(table.enter(rule(7), 1, &[258]), Err(NotEntered::NumberHeld));
    let refused: [(&[u16], NotEntered); 4] = [
        (&[0, 1], NotEntered::PatternMalformed),
        (&[256, 261, 261], NotEntered::NotLinear),
        (&[257, 261, 261], NotEntered::Ambiguous),
        (&HEAVY, NotEntered::TooHeavy),
    ];
    for (pattern, why) in refused {
        assert_eq!(table.enter(rule(8), 1, pattern), Err(why));
    }
    assert_eq!(table.rules().map(|(n, p, w)| (n.get(), p, w.len())).collect::<Vec<_>>(), [(7, 40, 3), (9, 41, 4)]);
    table.withdraw(rule(7)).unwrap();
    assert_eq!(table.withdraw(rule(7)), Err(Refusal::NotHeld));
    // the tree still answers by the rules that it was compiled from
    assert_eq!(tree.run(&[0, 1, 5]).unwrap().plan(), 40);
    assert_eq!(table.decide(&[0, 1, 5]), Ok(Answer::Default { plan: 1 }));
}

#[test]
fn the_default_plan() {
    with_stack(the_default_plan_here);
}

fn the_default_plan_here() {
    let mut table = table();
    assert_eq!(table.default_plan(), 1);
    let (before, first) = (table.words().to_vec(), table.compile().unwrap());
    // any plan, also that of a rule, and 0: that no rule takes the booking is told by the rule
    for plan in [2, 40, 0, u16::MAX, u16::MAX] {
        table.set_default(plan).unwrap();
        assert_eq!(table.default_plan(), plan);
        assert_eq!(table.words(), [&[2, plan], &before[2..]].concat());
        assert_eq!(Table::from_words(table.signature(), table.words()).as_ref(), Ok(&table));
        let tree = table.compile().unwrap();
        for answer in [table.decide(&[0, 3, 4]).unwrap(), tree.run(&[0, 3, 4]).unwrap()] {
            assert_eq!((answer, answer.rule(), answer.plan()), (Answer::Default { plan }, None, plan));
            assert_eq!(answer.to_string(), format!("no rule, plan {plan}"));
        }
        assert_eq!(tree.run(&[0, 1, 5]), first.run(&[0, 1, 5]));
        assert_eq!(tree.run(&[0, 1, 5]).unwrap().rule(), Some(rule(7)));
        // a tree keeps the plan that it was compiled with
        assert_eq!(first.run(&[0, 3, 4]), Ok(Answer::Default { plan: 1 }));
    }
    // entry and withdrawal keep it
    table.enter(rule(8), 0, &[0, 2, 4]).unwrap();
    assert_eq!((table.decide(&[0, 2, 4]).unwrap().rule(), table.default_plan()), (Some(rule(8)), u16::MAX));
    [7, 8, 9].into_iter().for_each(|n| table.withdraw(rule(n)).unwrap());
    assert_eq!(table.decide(&[0, 1, 5]), Ok(Answer::Default { plan: u16::MAX }));
    assert_eq!(table.compile().unwrap().words(), [0, u16::MAX]);
    assert_eq!(Table::new(table.signature()).compile().unwrap().words(), [0, 1]);
}

/// The numbers of the call itself, in their order, and nothing written.
#[test]
fn the_default_plan_is_refused() {
    let sound = table().words().to_vec();
    let mut unsound = sound.clone();
    unsound[2] = 9;
    let cases: [(&[u16], &[u16], u16); 5] = [
        (&T[..14], &unsound[1..], 1),
        (&T, &unsound[1..], 2),
        (&T, &[], 2),
        (&T, &unsound, 3),
        (&T, &sound, 0),
    ];
    for (signature, table, number) in cases {
        let mut words = table.to_vec();
        assert_eq!(raw::set_default(signature, 5, &mut words), number);
        if number == 0 {
            assert_eq!(words[1], 5);
            words[1] = table[1];
        }
        assert_eq!(words, table);
    }
}

#[test]
fn gaps() {
    with_stack(gaps_here);
}

/// The gap that is shown, if there is one: a lawful booking that goes to the default.
fn gap(table: &Table) -> Option<Vec<u16>> {
    let gap = table.gap().unwrap()?;
    assert!(table.signature().booking(&gap).is_ok());
    assert_eq!(table.decide(&gap).unwrap().rule(), None);
    Some(gap)
}

fn gaps_here() {
    let mut table = table();
    let before = table.words().to_vec();
    let left = [vec![0, 2, 4], vec![0, 3, 4]];
    // each gap of Case T closed by a rule for just that booking
    let first = gap(&table).unwrap();
    assert!(left.contains(&first));
    table.enter(rule(1), 1, &first).unwrap();
    let second = gap(&table).unwrap();
    assert!(left.contains(&second) && first != second);
    table.enter(rule(2), 1, &second).unwrap();
    assert_eq!(table.gap(), Ok(None));
    // the default plan says nothing of gaps
    table.set_default(40).unwrap();
    assert_eq!(table.gap(), Ok(None));
    table.withdraw(rule(1)).unwrap();
    assert_eq!(table.gap(), Ok(Some(first)));
    table.withdraw(rule(2)).unwrap();
    table.set_default(1).unwrap();
    assert_eq!(table.words(), before);

    let empty = Table::new(table.signature());
    assert!(gap(&empty).is_some());
    let mut one = empty.clone();
    one.enter(rule(1), 1, &[259]).unwrap();
    assert!(gap(&one).is_some());
    one.enter(rule(2), 1, &[258]).unwrap();
    assert_eq!(one.gap(), Ok(None));
}

/// Levels are the members of their kind.
#[test]
fn gaps_of_levels() {
    with_stack(gaps_of_levels_here);
}

fn gaps_of_levels_here() {
    let mut table = Table::new(&Signature::new(&[4, 0, 2, 1, 2, 1, 0, 1, 0, 2, 5]).unwrap());
    let rules: [&[u16]; 4] = [&[0, 258, 280, 0, 36], &[0, 258, 280, 38, 99], &[0, 1, 280, 37, 37], &[0, 258, 280, 100, 100]];
    for (i, pattern) in rules.into_iter().enumerate() {
        assert!(gap(&table).is_some());
        table.enter(rule(1 + i as u16), 1, pattern).unwrap();
    }
    assert_eq!(gap(&table), Some(vec![0, 2, 1037]));
    table.enter(rule(5), 1, &[0, 2, 280, 37, 37]).unwrap();
    assert_eq!(table.gap(), Ok(None));
}

/// 16 bits and 16 labels: a rule for each label and value of that bit, and five for bookings without all bits. Every booking
/// is taken, and the tree asks for all bits first.
fn bits() -> Table {
    // 0: part and label; 1: four parts; 3: four bits; 2 and 4: without; bits 5 and 6; labels 7 to 22
    let mut words = vec![23, 0, 2, 1, 4, 1, 4, 2, 2, 2, 2, 1, 0, 2, 4, 3, 3, 3, 3, 2, 0, 3, 0, 3, 0];
    words.extend([4, 0].repeat(16));
    let mut table = Table::new(&Signature::new(&words).unwrap());
    let part = [3, 258, 258, 258, 258];
    let mut patterns = vec![vec![0, 2, 258]];
    for i in 0..4 {
        patterns.push([vec![0, 1], part.repeat(i), vec![4], vec![258; 3 - i], vec![258]].concat());
    }
    for i in 0..16 {
        for bit in [5, 6] {
            let mut pattern = [vec![0, 1], part.repeat(4), vec![7 + i as u16]].concat();
            pattern[2 + i / 4 * 5 + 1 + i % 4] = bit;
            patterns.push(pattern);
        }
    }
    for (i, pattern) in patterns.iter().enumerate() {
        table.enter(rule(1 + i as u16), 1, pattern).unwrap();
    }
    table
}

/// The tables of these rules are answered, though their trees are too large.
#[test]
fn gaps_without_a_tree() {
    with_stack(gaps_without_a_tree_here);
}

fn gaps_without_a_tree_here() {
    let mut table = bits();
    assert_eq!(table.compile(), Err(Refusal::TreeTooLarge));
    assert_eq!(table.gap(), Ok(None));
    // the rule of the last label and the last bit's upper value
    table.withdraw(rule(37)).unwrap();
    assert_eq!(table.compile(), Err(Refusal::TreeTooLarge));
    let shown = gap(&table).unwrap();
    assert_eq!((shown.len(), shown[21], shown[22]), (23, 6, 22));
}

/// The numbers of the call itself, in their order; what is not shown is not written.
#[test]
fn gaps_are_refused() {
    with_stack(gaps_are_refused_here);
}

fn gaps_are_refused_here() {
    let sound = table().words().to_vec();
    let mut unsound = sound.clone();
    unsound[2] = 9;
    let cases: [(&[u16], &[u16], usize, u16); 9] = [
        (&T[..14], &unsound[1..], 0, 1),
        (&T[..14], &sound, WITNESS, 1),
        (&T, &unsound[1..], WITNESS, 2),
        (&T, &unsound, WITNESS - 1, 2),
        (&T, &sound, 0, 2),
        (&T, &[], WITNESS, 2),
        (&T, &unsound, WITNESS, 3),
        (&T, &sound, WITNESS, 0),
        (&T, &sound, WITNESS + 9, 0),
    ];
    for (signature, table, n, number) in cases {
        let mut witness = vec![7; n];
        let shown = raw::gap(signature, table, &mut witness);
        assert_eq!(shown, raw::Shown { number, length: if number == 0 { 3 } else { 0 } });
        assert!(witness[shown.length..].iter().all(|w| *w == 7));
    }
    let mut all = Table::new(&Signature::new(&T).unwrap());
    all.enter(rule(1), 1, &[258]).unwrap();
    let mut witness = vec![7; WITNESS];
    assert_eq!(raw::gap(&T, all.words(), &mut witness), raw::Shown { number: 0, length: 0 });
    assert_eq!(witness, [7; WITNESS]);
}

#[test]
fn what_is_checked_once() {
    assert_eq!(Signature::new(&[]), Err(Refusal::SignatureUnlawful));
    assert_eq!(Signature::new(&T[..14]), Err(Refusal::SignatureUnlawful));
    assert_eq!(RuleNumber::new(0), Err(Refusal::NumberOutside));
    assert_eq!(RuleNumber::new(1000), Err(Refusal::NumberOutside));
    let table = table();
    let sig = table.signature();
    assert_eq!(Table::from_words(sig, table.words()).as_ref(), Ok(&table));
    assert_eq!(Table::from_words(sig, &table.words()[1..]), Err(Refusal::TooShort));
    // words behind the table's own say nothing of it
    assert_eq!(Table::from_words(sig, &[table.words(), &[7, 8]].concat()).as_ref(), Ok(&table));
    let mut twice = table.words().to_vec();
    twice[2] = 9;
    assert_eq!(Table::from_words(sig, &twice), Err(Refusal::TableUnsound));
    let words = [0, 1, 5];
    let b = sig.booking(&words).unwrap();
    assert_eq!((b.part(0), b.part(2)), (Ok(&words[..]), Ok(&words[2..])));
    assert_eq!(b.part(3), Err(Refusal::PlaceOutside));
    assert_eq!(sig.booking(&words[..2]).unwrap_err(), Refusal::BookingUnlawful);
}

/// Each booking pushed word by word is refused as it is whole, and at the first word that may not stand there.
#[test]
fn word_by_word() {
    let sig = Signature::new(&T).unwrap();
    let bookings: [(&[u16], Option<usize>); 8] = [
        (&[], None),
        (&[0, 1], None),
        (&[0, 1, 5], None),
        (&[1], Some(0)),
        (&[0, 4, 5], Some(1)),
        (&[0, 1, 1000], Some(2)),
        (&[0, 1, 5, 5], Some(3)),
        (&[0, 1, 65535, 5], Some(2)),
    ];
    for (words, wrong) in bookings {
        let mut checker = Checker::new(&sig);
        for (i, w) in words.iter().enumerate() {
            assert_eq!(checker.finish(), sig.booking(&words[..i]).map(|_| ()));
            let expected = if wrong.is_some_and(|at| at <= i) { Err(Refusal::BookingUnlawful) } else { Ok(()) };
            assert_eq!(checker.push(*w), expected);
        }
        assert_eq!(checker.finish(), sig.booking(words).map(|_| ()));
        assert_eq!(checker.went_wrong_at(), wrong);
    }
}

/// Bookings of 4,096 words and 256 deep, and of one more.
#[test]
fn word_by_word_at_the_limits() {
    // 0 has one argument, 1 two, 2 none
    let sig = Signature::new(&[3, 0, 1, 0, 0, 2, 0, 0, 0, 0]).unwrap();
    fn exact(n: usize) -> Vec<u16> {
        match n {
            1 => vec![2],
            2 => vec![0, 2],
            _ => [vec![1], exact((n - 1) / 2), exact(n - 1 - (n - 1) / 2)].concat(),
        }
    }
    let deep = |n: usize| [vec![0; n - 1], vec![2]].concat();
    for (words, wrong) in [(exact(4096), None), (exact(4097), Some(4096)), (deep(256), None), (deep(257), Some(256))] {
        let mut checker = Checker::new(&sig);
        let refused = words.iter().position(|w| checker.push(*w).is_err());
        assert_eq!((refused, checker.went_wrong_at()), (wrong, wrong));
        assert_eq!(checker.finish().is_ok(), wrong.is_none());
    }
    assert_eq!(std::mem::size_of::<raw::Check>(), 2 * CHECK_WORDS);
}

/// A log made of answers, and its tally.
#[test]
fn the_tally_of_answers() {
    with_stack(the_tally_of_answers_here);
}

fn the_tally_of_answers_here() {
    let table = table();
    let bookings = [[0, 2, 5], [0, 3, 4], [0, 1, 5], [0, 3, 5], [0, 1, 4]];
    let answers: Vec<Answer> = bookings.iter().map(|b| table.decide(b).unwrap()).collect();
    let log: Vec<u16> = answers.iter().map(Answer::log_entry).collect();
    assert_eq!(log, [9, 0, 7, 9, 7]);
    let tally = tally(&log).unwrap();
    assert_eq!((tally.total(), tally.count(None), tally.count(Some(rule(7))), tally.count(Some(rule(8)))), (5, 1, 2, 0));
    assert_eq!(tally.iter().collect::<Vec<_>>(), [(None, 1), (Some(rule(7)), 2), (Some(rule(9)), 2)]);
    assert_eq!(tally.to_string(), "rule=0 count=1\nrule=7 count=2\nrule=9 count=2\ntotal=5");
    for answer in &answers {
        assert!(tally.count(answer.rule()) > 0);
    }
}

/// The empty log, all rules, logs of 4,096 entries and of one more, and entries above 999.
#[test]
fn tallies_at_the_limits() {
    let none = tally(&[]).unwrap();
    assert_eq!((none.total(), none.iter().count(), none.to_string()), (0, 0, "total=0".into()));
    let all: Vec<u16> = (0..=LAST_RULE).rev().collect();
    let each = tally(&all).unwrap();
    assert_eq!((all.len(), each.total(), each.iter().count()), (RULE_NUMBERS, RULE_NUMBERS, RULE_NUMBERS));
    assert!(each.iter().zip(0..).all(|((r, count), n)| count == 1 && r.map_or(0, RuleNumber::get) == n));
    let most = [all.repeat(4), vec![LAST_RULE; 96]].concat();
    let full = tally(&most).unwrap();
    assert_eq!((full.total(), full.count(Some(rule(LAST_RULE))), full.count(None)), (LOG, 100, 4));
    assert_eq!(full.iter().map(|(_, count)| count).sum::<usize>(), LOG);
    assert_eq!(tally(&[0; LOG]).unwrap().count(None), LOG);
    for n in [LOG + 1, 65535, 65536, 65537, 65536 + LOG] {
        assert_eq!(tally(&vec![7; n]), Err(Refusal::LogBeyond));
    }
    for above in [1000, 1001, 1024, 65535] {
        assert_eq!(tally(&[above]), Err(Refusal::LogBeyond));
        for at in [0, LOG / 2, LOG - 1] {
            let mut log = most.clone();
            log[at] = above;
            assert_eq!(tally(&log), Err(Refusal::LogBeyond));
        }
    }
    // on a refusal all but the number are 0
    let refused = raw::Tallied { number: 19, total: 0, counts: [0; RULE_NUMBERS] };
    assert_eq!((raw::tally(&[7, 7, 1000]), raw::tally(&[7; LOG + 1])), (refused.clone(), refused));
    assert_eq!(std::mem::size_of::<raw::Tallied>(), 2 * (2 + RULE_NUMBERS));
}

/// Buses on the plug, while a rule is withdrawn and another entered.
#[test]
fn open_charges() {
    with_stack(open_charges_here);
}

/// What a charge has: its rule, 0 for none, its plan and its booking.
fn seen(charges: &OpenCharges) -> Vec<(u16, u16, Vec<u16>)> {
    charges.iter().map(|c| (c.rule().map_or(0, RuleNumber::get), c.plan(), c.booking().to_vec())).collect()
}

fn open_charges_here() {
    let mut table = table();
    let tree = table.compile().unwrap();
    let mut charges = OpenCharges::new();
    for b in [[0, 1, 5], [0, 2, 5], [0, 3, 4], [0, 3, 5]] {
        charges.plug_in(&tree.run(&b).unwrap(), &b).unwrap();
    }
    let bookings = |b: [(u16, u16, [u16; 3]); 4]| b.map(|(rule, plan, words)| (rule, plan, words.to_vec())).to_vec();
    assert_eq!(seen(&charges), bookings([(7, 40, [0, 1, 5]), (9, 41, [0, 2, 5]), (0, 1, [0, 3, 4]), (9, 41, [0, 3, 5])]));
    assert_eq!((charges.len(), charges.is_empty(), charges.words().len()), (4, false, 4 * CHARGE));
    assert_eq!(charges.get(0).unwrap().to_string(), "rule 7, plan 40");
    assert_eq!(charges.get(2).unwrap().to_string(), "no rule, plan 1");
    assert_eq!(charges.get(4), None);
    // by the tree that answered them nothing changes
    let before = charges.clone();
    assert_eq!(tree.replan(&mut charges), Ok(0));
    assert_eq!(charges, before);
    // rule 9 goes; rule 5 takes some of its bookings, with its plan; 0 3 4 gets a rule and keeps its plan
    table.withdraw(rule(9)).unwrap();
    table.enter(rule(5), 41, &[0, 2, 258]).unwrap();
    table.enter(rule(6), 1, &[0, 3, 4]).unwrap();
    let new = table.compile().unwrap();
    assert_eq!(new.replan(&mut charges), Ok(1));
    assert_eq!(seen(&charges), bookings([(7, 40, [0, 1, 5]), (5, 41, [0, 2, 5]), (6, 1, [0, 3, 4]), (0, 1, [0, 3, 5])]));
    for c in charges.iter() {
        let answer = new.run(c.booking()).unwrap();
        assert_eq!((answer.rule(), answer.plan()), (c.rule(), c.plan()));
    }
    assert_eq!(new.replan(&mut charges), Ok(0));
    // another default plan
    table.set_default(65535).unwrap();
    assert_eq!(table.compile().unwrap().replan(&mut charges), Ok(1));
    assert_eq!(charges.get(3).unwrap().plan(), 65535);
    // stored, and read again
    assert_eq!(OpenCharges::from_words(charges.words()).as_ref(), Ok(&charges));
    // a bus leaves, and those behind it move up
    assert!(charges.unplug(1) && !charges.unplug(3));
    assert_eq!(seen(&charges).iter().map(|c| c.0).collect::<Vec<_>>(), [7, 6, 0]);
    assert!(charges.unplug(2) && charges.unplug(0) && charges.unplug(0) && !charges.unplug(0));
    assert_eq!((&charges, charges.is_empty()), (&OpenCharges::new(), true));
    assert_eq!(new.replan(&mut charges), Ok(0));
}

/// One bad record leaves all charges as they were: an unlawful booking, or a tree that is broken for it.
#[test]
fn one_bad_charge() {
    with_stack(one_bad_charge_here);
}

fn one_bad_charge_here() {
    let tree = table().compile().unwrap();
    let answer = tree.run(&[0, 3, 4]).unwrap();
    let mut words = tree.words().to_vec();
    // the leaf of rule 7 has no rule
    words[12] = 0;
    let broken = Tree::from_words(table().signature(), &words);
    let none = Tree::from_words(table().signature(), &[]);
    let (fine, of_seven, cut) = ([0, 2, 5].as_slice(), [0, 1, 5].as_slice(), [0, 1].as_slice());
    let cases = [
        (&tree, vec![fine, cut, fine], Refusal::BookingUnlawful),
        (&broken, vec![fine, of_seven], Refusal::TreeBroken),
        (&broken, vec![fine, of_seven, cut], Refusal::TreeBroken),
        (&broken, vec![fine, cut, of_seven], Refusal::BookingUnlawful),
        (&none, vec![fine], Refusal::TreeBroken),
    ];
    for (tree, bookings, refusal) in cases {
        let mut charges = OpenCharges::new();
        bookings.iter().for_each(|b| charges.plug_in(&answer, b).unwrap());
        let before = charges.clone();
        assert_eq!(tree.replan(&mut charges), Err(refusal));
        assert_eq!(charges, before);
    }
    assert_eq!(none.replan(&mut OpenCharges::new()), Ok(0));
    // the first charge alone: its rule and plan are the new ones
    let mut charges = OpenCharges::new();
    charges.plug_in(&answer, fine).unwrap();
    assert_eq!(broken.replan(&mut charges), Ok(1));
    assert_eq!(seen(&charges), [(9, 41, fine.to_vec())]);
}

/// 48 charges and no more; bookings of 1 to 61 words; and lists that are read back, malformed ones too.
#[test]
fn open_charges_at_the_limits() {
    let answer = Answer::Default { plan: 1 };
    let mut charges = OpenCharges::new();
    assert_eq!(charges.plug_in(&answer, &[]), Err(NotPluggedIn::NoBooking));
    assert_eq!(charges.plug_in(&answer, &[7; 62]), Err(NotPluggedIn::BookingTooLong));
    assert_eq!(charges.plug_in(&answer, &[7; 65539]), Err(NotPluggedIn::BookingTooLong));
    assert_eq!(charges, OpenCharges::new());
    for n in 0..CHARGES {
        // a booking of each of many lengths, the longest among them
        charges.plug_in(&answer, &vec![7; CHARGE_BOOKING - n]).unwrap();
    }
    charges.unplug(47);
    charges.plug_in(&answer, &[8]).unwrap();
    let full = charges.clone();
    assert_eq!(charges.plug_in(&answer, &[7]), Err(NotPluggedIn::Full));
    assert_eq!(charges.plug_in(&answer, &[]), Err(NotPluggedIn::NoBooking));
    assert_eq!((charges.len(), &charges, charges.words().len()), (CHARGES, &full, CHARGES * CHARGE));
    assert_eq!(charges.iter().map(|c| c.booking().len()).sum::<usize>(), (15..=61).sum::<usize>() + 1);
    assert_eq!(OpenCharges::from_words(full.words()), Ok(full.clone()));
    for e in [NotPluggedIn::NoBooking, NotPluggedIn::BookingTooLong, NotPluggedIn::Full] {
        assert_eq!((e.refusal(), Refusal::from(e)), (Refusal::ChargesMalformed, Refusal::ChargesMalformed));
    }
    assert_eq!(NotPluggedIn::Full.to_string(), "48 charges are open.");

    let malformed = |words: &[u16]| assert_eq!(OpenCharges::from_words(words), Err(Refusal::ChargesMalformed));
    assert_eq!(OpenCharges::from_words(&[]), Ok(OpenCharges::new()));
    malformed(&[full.words(), &full.words()[..CHARGE]].concat());
    malformed(&full.words().repeat(22));
    let one = &full.words()[..CHARGE];
    let short = &full.words()[47 * CHARGE..];
    (1..CHARGE).for_each(|n| malformed(&one[..n]));
    malformed(&[one, &[0]].concat());
    for length in [0, 62, 63, 64, 65535] {
        malformed(&[&short[..2], &[length], &short[3..]].concat());
    }
    for at in 4..CHARGE {
        let mut words = [one, short].concat();
        words[CHARGE + at] = 1;
        malformed(&words);
    }
    // any rule and plan; a word that is no rule's number is none
    let odd = OpenCharges::from_words(&[&[1000, 65535], &short[2..]].concat()).unwrap();
    assert_eq!(seen(&odd), [(0, 65535, vec![8])]);
    assert_eq!(odd.words()[0], 1000);
    // on a refusal all but the number is 0
    let refused = |words: &[u16]| raw::replan(&T, &[0, 1], &mut words.to_vec());
    assert_eq!((refused(&[7]), refused(short)), (raw::Replanned { number: 20, changed: 0 }, raw::Replanned { number: 13, changed: 0 }));
    assert_eq!(std::mem::size_of::<raw::Replanned>(), 4);
}

/// `?` where a refusal is due, and where any error is.
#[test]
fn errors() {
    fn refusal() -> Result<Answer, Refusal> {
        let mut table = Table::new(&Signature::new(&T)?);
        table.enter(RuleNumber::new(7)?, 40, &[0, 1, 261])?;
        table.enter(RuleNumber::new(8)?, 40, &[258])?;
        table.decide(&[0, 1, 5])
    }
    fn any() -> Result<Answer, Box<dyn std::error::Error>> {
        Ok(refusal()?)
    }
    assert_eq!(refusal(), Err(Refusal::SharesBooking));
    assert_eq!(any().unwrap_err().to_string(), "The rule shares a booking with a held rule. (12)");
}

/// 255 constructors with four arguments and one without: lawful, and no lawful signature is longer.
#[test]
fn the_longest_signature() {
    let mut words = vec![256];
    for c in 0..256 {
        words.extend(if c == 255 { vec![3, 0] } else { vec![c / 64, 4, 3, 3, 3, 3] });
    }
    assert_eq!(words.len(), SIGNATURE);
    assert!(Signature::new(&words).is_ok());
    let last = words.len() - 1;
    words[last] = 4;
    assert_eq!(Signature::new(&[&words[..], &[3; 4]].concat()), Err(Refusal::SignatureUnlawful));
}
