//! Cases for comparisons, and the feeds that carry them.
//!
//! Nothing here knows an answer: the independent program gives those. What is here decides what is asked.
//!
//! | File | Holds |
//! |---|---|
//! | [`any`] | cases of every class from a seed |
//! | [`random`] | numbers from a seed |
//! | [`feed`] | the questions as `replay` takes them, and the lines it answers |
//! | [`xml`] | texts for house XML alone: whole ones, chosen ones, damaged ones |
//! | [`values`] | texts of leaves, kind by kind, up to each boundary |
//! | [`message`] | whole messages: made, chosen, damaged |
//! | [`checks`] | chosen files for every code and the order of the codes |
//! | [`runs`] | runs of images: chosen, joined, damaged |
//! | [`writes`] | runs for the writer: every value, every code, files at the limit |
//! | [`tidies`] | files for tidying: odd ones, both rooms, tidied forms at the limit |
//! | [`statement`] | realistic statements, good or with one fault |
//! | [`lane`] | files for the fast lane, each with a twin for the exact passes |
//! | [`inputs`] | inputs for the programs over standard input |

pub mod any;
pub mod checks;
pub mod feed;
pub mod inputs;
pub mod lane;
pub mod message;
pub mod random;
pub mod runs;
pub mod statement;
pub mod tidies;
pub mod values;
pub mod writes;
pub mod xml;
