//! The tests.

mod appendix;
mod count;
mod equal;
mod generator;
mod hex;
mod links;
mod makers;
mod merges;
mod origins;
mod pairs;
mod parts;
mod regions;
mod round_trip;
mod tool;
mod undo;
mod vectors;
