//! The part of this package that does not link the proved library: the independent program, and the generator of numbers.
pub mod model;
pub mod random;
