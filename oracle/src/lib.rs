//! The freeway study engine a second time, written from documents 01
//! and 02 alone.
//!
//! It shares no code with the proved engine. The two are run against each
//! other on many inputs; where they differ, one of them misreads the paper.

pub mod book;
pub mod case;
pub mod drain;
pub mod emptying;
pub mod file;
pub mod network;
mod ranges;
pub mod refusal;
pub mod step;
mod stored;
mod stored_case;
pub mod study;
pub mod survey;
