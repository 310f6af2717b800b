//! Stands for `core` where the standard library's sources aren't there: the names that preludes bring.
#![no_core]

pub mod marker {
    pub trait Copy {}
    pub trait Send {}
    pub trait Sized {}
    pub trait Sync {}
    pub trait Unpin {}
    pub struct PhantomData;
    #[rustc_builtin_macro]
    pub macro Copy($item:item) {}
}
pub mod clone {
    pub trait Clone {}
    #[rustc_builtin_macro]
    pub macro Clone($item:item) {}
}
pub mod cmp {
    pub trait Eq {}
    pub trait Ord {}
    pub trait PartialEq {}
    pub trait PartialOrd {}
    #[rustc_builtin_macro]
    pub macro Eq($item:item) {}
    #[rustc_builtin_macro]
    pub macro Ord($item:item) {}
    #[rustc_builtin_macro]
    pub macro PartialEq($item:item) {}
    #[rustc_builtin_macro]
    pub macro PartialOrd($item:item) {}
}
pub mod convert {
    pub trait AsMut {}
    pub trait AsRef {}
    pub trait From {}
    pub trait Into {}
    pub trait TryFrom {}
    pub trait TryInto {}
}
pub mod default {
    pub trait Default {}
    #[rustc_builtin_macro(Default, attributes(default))]
    pub macro Default($item:item) {}
}
pub mod fmt {
    pub trait Debug {}
    pub mod macros {
        #[rustc_builtin_macro]
        pub macro Debug($item:item) {}
    }
    pub use macros::Debug;
}
pub mod hash {
    pub trait Hash {}
    pub mod macros {
        #[rustc_builtin_macro]
        pub macro Hash($item:item) {}
    }
    pub use macros::Hash;
}
pub mod iter {
    pub trait DoubleEndedIterator {}
    pub trait ExactSizeIterator {}
    pub trait Extend {}
    pub trait FromIterator {}
    pub trait IntoIterator {}
    pub trait Iterator {}
}
pub mod mem {
    pub fn align_of() {}
    pub fn drop() {}
    pub fn size_of() {}
}
pub mod ops {
    pub trait Drop {}
    pub trait Fn {}
    pub trait FnMut {}
    pub trait FnOnce {}
}
pub mod option {
    pub enum Option {
        None,
        Some(u8),
    }
}
pub mod result {
    pub enum Result {
        Err(u8),
        Ok(u8),
    }
}

pub mod prelude {
    pub mod v1 {
        pub use crate::clone::Clone;
        pub use crate::cmp::{Eq, Ord, PartialEq, PartialOrd};
        pub use crate::convert::{AsMut, AsRef, From, Into};
        pub use crate::default::Default;
        pub use crate::fmt::macros::Debug;
        pub use crate::hash::macros::Hash;
        pub use crate::iter::{DoubleEndedIterator, ExactSizeIterator, Extend, IntoIterator, Iterator};
        pub use crate::marker::{Copy, Send, Sized, Sync, Unpin};
        pub use crate::mem::drop;
        pub use crate::ops::{Drop, Fn, FnMut, FnOnce};
        pub use crate::option::Option::{self, None, Some};
        pub use crate::result::Result::{self, Err, Ok};
        #[rustc_builtin_macro]
        pub macro derive($item:item) {}
        #[rustc_builtin_macro]
        pub macro test($item:item) {}
        #[rustc_builtin_macro]
        pub macro bench($item:item) {}
        #[rustc_builtin_macro]
        pub macro test_case($item:item) {}
        #[rustc_builtin_macro]
        pub macro global_allocator($item:item) {}
        #[rustc_builtin_macro]
        pub macro cfg_eval($item:item) {}
        #[rustc_builtin_macro]
        pub macro cfg_accessible($item:item) {}
    }
    pub mod rust_2015 {
        pub use super::v1::*;
    }
    pub mod rust_2018 {
        pub use super::v1::*;
    }
    pub mod rust_2021 {
        pub use super::v1::*;
        pub use crate::convert::{TryFrom, TryInto};
        pub use crate::iter::FromIterator;
    }
    pub mod rust_2024 {
        pub use super::rust_2021::*;
    }
}

macro_rules! builtin {
    ($($name:ident)*) => {
        $(
            #[rustc_builtin_macro]
            #[macro_export]
            macro_rules! $name { () => {} }
        )*
    };
}
builtin! {
    assert asm cfg column compile_error concat concat_idents concat_bytes const_format_args env file format_args
    global_asm include include_bytes include_str line log_syntax module_path option_env stringify trace_macros
}

macro_rules! written {
    ($($name:ident)*) => {
        $(
            #[macro_export]
            macro_rules! $name { ($$($$it:tt)*) => {} }
        )*
    };
}
written! {
    assert_eq assert_ne debug_assert debug_assert_eq debug_assert_ne matches panic todo try unimplemented unreachable
    write writeln
}
