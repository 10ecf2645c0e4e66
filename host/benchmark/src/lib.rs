//! What is measured: tables and deep inputs, the painted stack, the list of rules in which the first that fits wins.
pub mod calls;
pub mod cases;
pub mod deep;
pub mod first_match;
pub mod instances;
pub mod search;
pub mod stack;
