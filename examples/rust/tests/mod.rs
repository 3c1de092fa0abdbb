//! Tests of the binding, by the parts of the header.

mod answers;
mod expect;
mod header;
mod papers;
mod reading;
mod scalars;
mod shapes;
mod sheets;
mod sizes;
mod types;
mod validation;
mod values;
