//! Schedules for the step machine: made, run, compared, checked, told in words, drawn, and asked
//! why an operation is still open. What each file is about stands here by subject.
#![forbid(unsafe_code)]

// Schedules are made: five sorts by a seed, and the night rehearsal.
pub mod jam;
pub mod night;
pub mod odd;
pub mod overtaken;
pub mod prng;
pub mod profile;
pub mod schedule;

// Two programs run them and are compared; a difference is made short.
pub mod compare;
pub mod external;
pub mod files;
pub mod shrink;
pub mod soak;
pub mod steps;
pub mod tally;

// Answers are checked, and their operations set in one line.
pub mod allowed;
pub mod history;
pub mod order;
pub mod printed;

// A machine in words.
pub mod columns;
pub mod meaning;
pub mod names;
pub mod newest;
pub mod tell;
pub mod view;
pub mod words;

// Pictures and pages.
pub mod arrows;
pub mod below;
pub mod brackets;
pub mod draw;
pub mod json;
pub mod page;
pub mod refused;
pub mod rows;
pub mod story;
pub mod svg;
pub mod underway;

// Why an operation is open.
pub mod ending;
pub mod least;
pub mod open;
pub mod premises;
pub mod why;

pub use compare::{compare, compare_all, Difference};
pub use schedule::{cold_schedule, schedule};
