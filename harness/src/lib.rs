//! The proved engine and the oracle on the same inputs.

pub mod arrays;
pub mod bounds;
pub mod calls;
pub mod cases;
pub mod compare;
pub mod damages;
pub mod draft;
pub mod engine;
pub mod lists;
pub mod made;
pub mod networks;
pub mod random;
pub mod reached;
pub mod runner;
pub mod speeds;
pub mod stored_case;
pub mod study;
pub mod surveys;
pub mod words;
