//! The calls as they are, over slices and numbers. Every one is defined on every input.
use crate::{CHECK_WORDS, RULE_NUMBERS};

/// On 12 the lowest rule that shares a booking and the booking's length; else 0 and 0.
#[repr(C)]
#[derive(Clone, Copy, Debug, PartialEq, Eq)]
pub struct Entered {
    pub number: u16,
    pub rule: u16,
    pub length: usize,
}

/// The tree's length in words, 0 on a refusal.
#[repr(C)]
#[derive(Clone, Copy, Debug, PartialEq, Eq)]
pub struct Tree {
    pub number: u16,
    pub length: usize,
}

/// The length of the booking that is shown, 0 where there is none and on a refusal.
#[repr(C)]
#[derive(Clone, Copy, Debug, PartialEq, Eq)]
pub struct Shown {
    pub number: u16,
    pub length: usize,
}

/// Rule, plan and a place for each variable, 65,535 where it is unbound; rule 0 and the default plan where no rule takes the
/// booking; all 0 on a refusal.
#[repr(C)]
#[derive(Clone, Copy, Debug, PartialEq, Eq)]
pub struct Answer {
    pub number: u16,
    pub rule: u16,
    pub plan: u16,
    pub places: [u16; 16],
}

/// Where the part begins and its length, 0 and 0 on a refusal.
#[repr(C)]
#[derive(Clone, Copy, Debug, PartialEq, Eq)]
pub struct Part {
    pub number: u16,
    pub start: usize,
    pub length: usize,
}

/// How often each rule stands in a log, by its number, the default as rule 0; and how many entries there are. All 0 on a refusal.
#[repr(C)]
#[derive(Clone, Debug, PartialEq, Eq)]
pub struct Tallied {
    pub number: u16,
    pub total: u16,
    pub counts: [u16; RULE_NUMBERS],
}

/// Of how many open charges the plan changed, 0 on a refusal.
#[repr(C)]
#[derive(Clone, Copy, Debug, PartialEq, Eq)]
pub struct Replanned {
    pub number: u16,
    pub changed: u16,
}

/// What a check of a booking keeps between two of its words; the header has what stands where.
#[repr(C)]
#[derive(Clone, Debug, PartialEq, Eq)]
pub struct Check {
    pub words: [u16; CHECK_WORDS],
}

impl Default for Check {
    fn default() -> Check {
        Check { words: [0; CHECK_WORDS] }
    }
}

mod link {
    use super::*;
    extern "C" {
        pub fn bellgantlet_empty(table: *mut u16, table_n: usize) -> u16;
        pub fn bellgantlet_enter(
            signature: *const u16,
            signature_n: usize,
            number: u16,
            plan: u16,
            pattern: *const u16,
            pattern_n: usize,
            table: *mut u16,
            table_n: usize,
            witness: *mut u16,
            witness_n: usize,
        ) -> Entered;
        pub fn bellgantlet_withdraw(signature: *const u16, signature_n: usize, number: u16, table: *mut u16, table_n: usize) -> u16;
        pub fn bellgantlet_set_default(signature: *const u16, signature_n: usize, plan: u16, table: *mut u16, table_n: usize) -> u16;
        pub fn bellgantlet_compile(
            signature: *const u16,
            signature_n: usize,
            table: *const u16,
            table_n: usize,
            space: *mut u16,
            space_n: usize,
        ) -> Tree;
        pub fn bellgantlet_decide(
            signature: *const u16,
            signature_n: usize,
            table: *const u16,
            table_n: usize,
            booking: *const u16,
            booking_n: usize,
        ) -> Answer;
        pub fn bellgantlet_gap(
            signature: *const u16,
            signature_n: usize,
            table: *const u16,
            table_n: usize,
            witness: *mut u16,
            witness_n: usize,
        ) -> Shown;
        pub fn bellgantlet_run(
            signature: *const u16,
            signature_n: usize,
            tree: *const u16,
            tree_n: usize,
            booking: *const u16,
            booking_n: usize,
        ) -> Answer;
        pub fn bellgantlet_part(signature: *const u16, signature_n: usize, booking: *const u16, booking_n: usize, place: usize) -> Part;
        pub fn bellgantlet_check_begin(signature: *const u16, signature_n: usize, check: *mut Check) -> u16;
        pub fn bellgantlet_check_step(signature: *const u16, signature_n: usize, check: *mut Check, word: u16) -> u16;
        pub fn bellgantlet_check_end(check: *const Check) -> u16;
        pub fn bellgantlet_tally(log: *const u16, log_n: usize) -> Tallied;
        pub fn bellgantlet_replan(
            signature: *const u16,
            signature_n: usize,
            tree: *const u16,
            tree_n: usize,
            charges: *mut u16,
            charges_n: usize,
        ) -> Replanned;
    }
}

// SAFETY, of all calls: pointer and length come from one slice each, or a pointer from a reference; what is lent and written
// is exclusive by its type; the library keeps no pointer, and is proved to stay within what it is lent.

pub fn empty(table: &mut [u16]) -> u16 {
    unsafe { link::bellgantlet_empty(table.as_mut_ptr(), table.len()) }
}

pub fn enter(signature: &[u16], number: u16, plan: u16, pattern: &[u16], table: &mut [u16], witness: &mut [u16]) -> Entered {
    unsafe {
        link::bellgantlet_enter(
            signature.as_ptr(),
            signature.len(),
            number,
            plan,
            pattern.as_ptr(),
            pattern.len(),
            table.as_mut_ptr(),
            table.len(),
            witness.as_mut_ptr(),
            witness.len(),
        )
    }
}

pub fn withdraw(signature: &[u16], number: u16, table: &mut [u16]) -> u16 {
    unsafe { link::bellgantlet_withdraw(signature.as_ptr(), signature.len(), number, table.as_mut_ptr(), table.len()) }
}

pub fn set_default(signature: &[u16], plan: u16, table: &mut [u16]) -> u16 {
    unsafe { link::bellgantlet_set_default(signature.as_ptr(), signature.len(), plan, table.as_mut_ptr(), table.len()) }
}

pub fn compile(signature: &[u16], table: &[u16], space: &mut [u16]) -> Tree {
    unsafe {
        link::bellgantlet_compile(signature.as_ptr(), signature.len(), table.as_ptr(), table.len(), space.as_mut_ptr(), space.len())
    }
}

pub fn decide(signature: &[u16], table: &[u16], booking: &[u16]) -> Answer {
    unsafe {
        link::bellgantlet_decide(signature.as_ptr(), signature.len(), table.as_ptr(), table.len(), booking.as_ptr(), booking.len())
    }
}

pub fn gap(signature: &[u16], table: &[u16], witness: &mut [u16]) -> Shown {
    unsafe {
        link::bellgantlet_gap(signature.as_ptr(), signature.len(), table.as_ptr(), table.len(), witness.as_mut_ptr(), witness.len())
    }
}

pub fn run(signature: &[u16], tree: &[u16], booking: &[u16]) -> Answer {
    unsafe { link::bellgantlet_run(signature.as_ptr(), signature.len(), tree.as_ptr(), tree.len(), booking.as_ptr(), booking.len()) }
}

pub fn part(signature: &[u16], booking: &[u16], place: usize) -> Part {
    unsafe { link::bellgantlet_part(signature.as_ptr(), signature.len(), booking.as_ptr(), booking.len(), place) }
}

pub fn check_begin(signature: &[u16], check: &mut Check) -> u16 {
    unsafe { link::bellgantlet_check_begin(signature.as_ptr(), signature.len(), check) }
}

pub fn check_step(signature: &[u16], check: &mut Check, word: u16) -> u16 {
    unsafe { link::bellgantlet_check_step(signature.as_ptr(), signature.len(), check, word) }
}

pub fn check_end(check: &Check) -> u16 {
    unsafe { link::bellgantlet_check_end(check) }
}

pub fn tally(log: &[u16]) -> Tallied {
    unsafe { link::bellgantlet_tally(log.as_ptr(), log.len()) }
}

pub fn replan(signature: &[u16], tree: &[u16], charges: &mut [u16]) -> Replanned {
    unsafe {
        link::bellgantlet_replan(signature.as_ptr(), signature.len(), tree.as_ptr(), tree.len(), charges.as_mut_ptr(), charges.len())
    }
}
