//! 02, job 6: open charges, and their bookings answered again by a new tree.
use crate::signature::Signature;
use crate::tree::run;

pub const RECORDS: usize = 48;
pub const RECORD: usize = 64;
/// Rule, plan and booking length stand before the booking.
pub const ROOM: usize = RECORD - 3;

/// The number, the count of changed plans, and the list afterwards.
pub type Replanned = (u16, u16, Vec<u16>);

/// Rule, plan and booking.
pub type Charge = (u16, u16, Vec<u16>);

/// The records of such charges, whether or not their bookings have a lawful length.
pub fn list_of(charges: &[Charge]) -> Vec<u16> {
    let record = |(rule, plan, booking): &Charge| {
        let mut words = [&[*rule, *plan, booking.len() as u16], &booking[..]].concat();
        words.resize(RECORD, 0);
        words
    };
    charges.iter().flat_map(record).collect()
}

/// None where the list is malformed.
fn read(list: &[u16]) -> Option<Vec<Charge>> {
    let charges: Vec<Charge> = list.chunks(RECORD).map(charge).collect::<Option<_>>()?;
    (charges.len() <= RECORDS).then_some(charges)
}

fn charge(record: &[u16]) -> Option<Charge> {
    let [rule, plan, length, words @ ..] = record else { return None };
    let length = *length as usize;
    if words.len() != ROOM || length == 0 || length > ROOM || words[length..].iter().any(|w| *w != 0) {
        return None;
    }
    Some((*rule, *plan, words[..length].to_vec()))
}

pub fn replan(sig: &[u16], tree: &[u16], list: &[u16]) -> Replanned {
    match answered(sig, tree, list) {
        Err(number) => (number, 0, list.to_vec()),
        Ok((old, new)) => {
            let changed = old.iter().zip(&new).filter(|(o, n)| o.1 != n.1).count();
            (0, changed as u16, list_of(&new))
        }
    }
}

/// The charges as they were and as they are, or the first refusal.
fn answered(sig: &[u16], tree: &[u16], list: &[u16]) -> Result<(Vec<Charge>, Vec<Charge>), u16> {
    let sig = Signature::read(sig).ok_or(1u16)?;
    let old = read(list).ok_or(20u16)?;
    // one record after the other: the first that is refused ends it
    let again = |(_, _, booking): &Charge| {
        let value = sig.read_booking(booking).ok_or(13u16)?;
        let (rule, plan, _) = run(&sig, tree, &value).ok_or(15u16)?;
        Ok((rule, plan, booking.clone()))
    };
    let new = old.iter().map(again).collect::<Result<Vec<Charge>, u16>>()?;
    Ok((old, new))
}
