//! Where the traces come from.

pub mod addresses;
pub mod grown;
pub mod levels;
pub mod long;
pub mod readings;
pub mod services;
pub mod small;
pub mod times;
