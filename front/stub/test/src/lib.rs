//! Stands for `test` where the standard library's sources aren't there.

pub struct Bencher;
