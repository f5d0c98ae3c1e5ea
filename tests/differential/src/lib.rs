//! Compares an implementation of the rules with the reference.
//!
//! The implementation under trial is called the *subject*. Everything is
//! drawn from a seed, so every run can be repeated.
//!
//! * [`plans`], [`tables`], [`driver`] and [`texts`] make plans, tables of classes,
//!   simulation steps and simulation texts.
//! * [`trial`] makes one call on both sides and compares all that can be seen.
//! * [`cases`] has cases with known answers; [`calls`] tries single calls,
//!   [`job`] whole simulations, [`hosts`] the same with rows apart,
//!   [`journals`] lists of steps that are kept and taken back, also with named
//!   points, [`texts`] simulations from text, by the call and by the program;
//!   [`run`] puts them in turn.
//! * [`form`] has the two forms of plans, plain and with desks, in which most of
//!   these are run; [`slots`] has what the rules say of points, and names for
//!   them, and [`loads`] what they say of test loads.
//! * [`broken`] has copies of the reference with one mistake each, to show
//!   that the comparison can fail.

#[cfg(feature = "archive")]
pub mod archive;
pub mod broken;
pub mod calls;
pub mod cases;
pub mod codes;
pub mod driver;
pub mod form;
pub mod hosts;
pub mod implementation;
pub mod job;
pub mod journals;
pub mod lent;
pub mod loads;
pub mod plans;
pub mod program;
pub mod random;
pub mod run;
pub mod slots;
pub mod tables;
pub mod tally;
pub mod texts;
pub mod trial;

pub use implementation::{Implementation, Reference};
