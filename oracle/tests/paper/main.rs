//! The oracle against the paper.

mod arrays;
mod average;
mod average_in_arrays;
mod drain;
mod emptying;
mod file;
mod junction;
mod junction_file;
mod junction_sound;
mod laid;
mod lent;
mod lines;
mod mainstream;
mod networks;
mod refusals;
mod sound;
mod step;
mod step_in_arrays;
mod study;
mod survey;
mod worked;
mod worked_junction;
mod worker;
