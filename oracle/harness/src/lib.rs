//! Asks euclid questions over five scalars of ours: what `oracle` answers with, and `questions` asks by.
pub mod draw;
pub mod numbers;
pub mod scalars;
pub mod shapes;
pub mod table;
