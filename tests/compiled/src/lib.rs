//! The compiled library, called through the crate in `rust`, and the comparison of it with the
//! independent reader.

pub mod beside;
pub mod explainings;
pub mod lent;
pub mod openings;
pub mod writings;
