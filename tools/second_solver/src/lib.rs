//! A second solver of exchange markets, written from the documents alone.

pub mod cell;
pub mod check;
pub mod compare;
pub mod corner;
pub mod files;
pub mod generator;
pub mod labelling;
pub mod listing;
pub mod market;
pub mod other_road;
pub mod point;
pub mod random;
pub mod reader;
pub mod refusal;
pub mod solve;
pub mod walk;
