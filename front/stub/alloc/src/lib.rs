//! Stands for `alloc` where the standard library's sources aren't there.
#![no_std]

pub mod borrow {
    pub trait ToOwned {}
}
pub mod boxed {
    pub struct Box;
}
pub mod string {
    pub struct String;
    pub trait ToString {}
}
pub mod vec {
    pub struct Vec;
}

#[macro_export]
macro_rules! vec { ($($it:tt)*) => {} }
#[macro_export]
macro_rules! format { ($($it:tt)*) => {} }
