//! The measuring line, written plainly from its rules.
//!
//! Where a rule speaks of ticks, a function here walks ticks. Where tables are
//! too large for that, a second function works by arithmetic, and the tests hold
//! the two together. Columns are slices of 32-bit numbers; lent columns are
//! written only where the rules say so.

pub mod answer;
pub mod block;
pub mod book;
pub mod broken;
pub mod census;
pub mod check;
pub mod corners;
pub mod damage;
pub mod examples;
pub mod exports;
pub mod flip;
pub mod limits;
pub mod line;
pub mod lines;
pub mod moments;
pub mod order;
pub mod packing;
pub mod pages;
pub mod pair;
pub mod plan;
pub mod random;
pub mod room;
pub mod shape;
pub mod starts;
pub mod table;
pub mod text_table;
pub mod ticks;
pub mod timetable;
