//! Where the panels come from.

pub mod course;
pub mod heads;
pub mod sound;
pub mod spoils;
