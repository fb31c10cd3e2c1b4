//! Document 02, No. 5: a Mainfile set.

mod damaged;
mod guide;
mod pairs;
mod random;
mod refusals;
mod rows;
mod samples;
mod worked;
