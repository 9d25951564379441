//! Models, damaged texts, lists, orders and logs made from a seed.

pub mod damage;
pub mod generator;
pub mod lists;
pub mod logs;
pub mod models;
pub mod orders;
pub mod properties;
pub mod start_parts;
pub mod written;

pub use generator::Random;
