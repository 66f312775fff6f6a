//! The speed of the proved calls next to a fast Rust program of the same method. The package is a benchmark
//! and no test: it checks that both sides answer alike before it times them, and judges nothing.

pub mod count;
pub mod fast;
pub mod measure;
pub mod shapes;
pub mod sides;
pub mod table;
