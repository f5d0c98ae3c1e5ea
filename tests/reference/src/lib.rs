//! An independent implementation of document 01, with the requests that came
//! after it.
//!
//! It was written from those papers alone, so that a mistake made elsewhere
//! is not made here a second time. The C archive is compared with it, and it
//! is the yardstick for speed: nothing here allocates except the simulation
//! from text, and what tries every list of answers, [`lists`].
//!
//! * [`exported`] has one function for each function of the C archive, with
//!   the same packed results.
//! * [`rehearse`] is the program that runs a simulation from text.
//! * The modules below hold the rules themselves; a later rule goes into the
//!   module of the thing it is about, and its number into [`Refusal`].
//!
//! A *site* is what the document calls a post. Marks, codes and kinds carry
//! the document's numbers.

#![forbid(unsafe_code)]

pub mod central;
pub mod desks;
pub mod event;
pub mod exported;
pub mod forms;
pub mod guard;
pub mod impact;
pub mod journal;
pub mod layout;
pub mod lists;
pub mod load;
pub mod mark;
pub mod pass;
pub mod plan;
pub mod points;
pub mod record;
pub mod refusal;
pub mod repeat;
pub mod rewrite;
pub mod rule;
pub mod simulate;
pub mod site;
pub mod small;
pub mod table;
pub mod text;
pub mod way;

pub use refusal::Refusal;
pub use text::rehearse;
