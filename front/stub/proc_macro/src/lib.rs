//! Stands for `proc_macro` where the standard library's sources aren't there.

pub struct TokenStream;
