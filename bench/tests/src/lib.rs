//! Compares cores on stored vectors and on random scripts.
//!
//! [`generator`] writes commands for the drawing that the ordinary core is at: mostly good ones of all kinds, some
//! with faults for each question. [`damage`] damages the block of that drawing. [`campaign`] runs and hands over both, asks
//! [`laws`] and [`pieces`] of every answer, compares with another core, and [`histogram`] counts what was met.

pub mod campaign;
mod cells;
pub mod damage;
pub mod faults;
pub mod files;
pub mod generator;
pub mod histogram;
pub mod kinds;
pub mod laws;
pub mod pen;
pub mod picks;
pub mod pieces;
pub mod random;
pub mod vectors;
