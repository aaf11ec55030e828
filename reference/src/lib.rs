//! An independent implementation of document 01, written from the papers and from nothing else. It keeps time as one
//! whole number and instants as exact fractions, in 128-bit integers, and goes tick by tick. Beside it the ledger of
//! demand 3 with its bullets as assertions, and a tuned engine, as a good engineer would write it by hand, to measure
//! Lendaru against.
pub mod engine;
pub mod generator;
pub mod ledger;
pub mod random;
pub mod record;
pub mod sheet;
pub mod tally;
pub mod tuned;
pub mod tuned_sheet;
