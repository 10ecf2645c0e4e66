//! A call with all that it is lent, to be made on any thread.
use bellgantlet::{raw, stack, TABLE, TREE, WITNESS};

/// The names of the calls and what each is documented to take of the stack.
pub const CALLS: [(&str, usize); 14] = [
    ("part", stack::PART),
    ("run", stack::RUN),
    ("empty", stack::EMPTY),
    ("decide", stack::DECIDE),
    ("enter", stack::ENTER),
    ("withdraw", stack::WITHDRAW),
    ("set_default", stack::SET_DEFAULT),
    ("gap", stack::GAP),
    ("compile", stack::COMPILE),
    ("check_begin", stack::CHECK_BEGIN),
    ("check_step", stack::CHECK_STEP),
    ("check_end", stack::CHECK_END),
    ("tally", stack::TALLY),
    ("replan", stack::REPLAN),
];

#[derive(Clone, Default)]
pub struct Lent {
    pub signature: Vec<u16>,
    pub number: u16,
    pub pattern: Vec<u16>,
    pub table: Vec<u16>,
    pub tree: Vec<u16>,
    pub booking: Vec<u16>,
    pub place: usize,
    pub space: Vec<u16>,
    pub witness: Vec<u16>,
    pub check: raw::Check,
    pub word: u16,
    pub log: Vec<u16>,
    pub charges: Vec<u16>,
}

impl Lent {
    pub fn new(signature: &[u16], table: &[u16]) -> Lent {
        Lent { signature: signature.to_vec(), table: table.to_vec(), space: vec![0; TREE], witness: vec![0; WITNESS], ..Lent::default() }
    }

    pub fn empty(signature: &[u16]) -> Lent {
        Lent::new(signature, &[0; TABLE])
    }

    /// Makes the call of that name; its number.
    pub fn make(&mut self, call: &str) -> u16 {
        let l = self;
        match call {
            "part" => raw::part(&l.signature, &l.booking, l.place).number,
            "run" => raw::run(&l.signature, &l.tree, &l.booking).number,
            "empty" => raw::empty(&mut l.table),
            "decide" => raw::decide(&l.signature, &l.table, &l.booking).number,
            "enter" => raw::enter(&l.signature, l.number, 1, &l.pattern, &mut l.table, &mut l.witness).number,
            "withdraw" => raw::withdraw(&l.signature, l.number, &mut l.table),
            "set_default" => raw::set_default(&l.signature, 2, &mut l.table),
            "gap" => raw::gap(&l.signature, &l.table, &mut l.witness).number,
            "compile" => raw::compile(&l.signature, &l.table, &mut l.space).number,
            "check_begin" => raw::check_begin(&l.signature, &mut l.check),
            "check_step" => raw::check_step(&l.signature, &mut l.check, l.word),
            "check_end" => raw::check_end(&l.check),
            "tally" => tally(&l.log),
            "replan" => raw::replan(&l.signature, &l.tree, &mut l.charges).number,
            _ => panic!("no call {call}"),
        }
    }
}

/// By itself, since what it is handed back would stand in the frame of every call.
#[inline(never)]
fn tally(log: &[u16]) -> u16 {
    raw::tally(log).number
}

/// Inputs of one kind, each for one call.
pub struct Row {
    pub name: &'static str,
    pub inputs: Vec<(&'static str, Lent)>,
}
