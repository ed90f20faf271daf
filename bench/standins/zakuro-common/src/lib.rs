//! Stands in for the root of zakuro-common, of which the text gives one module.

pub mod bits;
