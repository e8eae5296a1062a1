//! The independent second program: the same paper, read a second time.
//!
//! Every part of the rules has a file of its own. The parts that are worth
//! comparing alone (a value, an item, a row, the dots of a row) are public
//! functions on plain bytes and numbers.

#![forbid(unsafe_code)]

pub mod cases;
pub mod commands;
pub mod dots;
pub mod leaves;
pub mod measure;
pub mod number;
pub mod park;
pub mod plain;
pub mod reader;
pub mod report;
pub mod rows;
pub mod run;
pub mod state;
pub mod step;
