//! A plain implementation of the house, written from the documents in `docs/` alone. The verified
//! code was not looked at, so that the two can be compared.

pub mod archive;
pub mod house;
pub mod list;
pub mod sheet;
pub mod shelf;
pub mod values;
