//! Stands for `std` where the standard library's sources aren't there.
#![no_std]

#[macro_use]
extern crate alloc as alloc_crate;

pub use alloc_crate::{borrow, boxed, format, string, vec};
pub use core::{
    assert, asm, assert_eq, assert_ne, cfg, clone, cmp, column, compile_error, concat, concat_idents, convert,
    debug_assert, debug_assert_eq, debug_assert_ne, default, env, file, fmt, format_args, global_asm, hash, include,
    include_bytes, include_str, iter, line, marker, matches, mem, module_path, ops, option, option_env, result,
    stringify, todo, unimplemented, unreachable, write, writeln,
};
pub use core::{panic, r#try};

pub mod prelude {
    pub mod v1 {
        pub use crate::borrow::ToOwned;
        pub use crate::boxed::Box;
        pub use crate::string::{String, ToString};
        pub use crate::vec::Vec;
        pub use core::prelude::v1::*;
    }
    pub mod rust_2015 {
        pub use super::v1::*;
    }
    pub mod rust_2018 {
        pub use super::v1::*;
    }
    pub mod rust_2021 {
        pub use super::v1::*;
        pub use core::prelude::rust_2021::*;
    }
    pub mod rust_2024 {
        pub use super::v1::*;
        pub use core::prelude::rust_2024::*;
    }
}

macro_rules! written {
    ($($name:ident)*) => {
        $(
            #[macro_export]
            macro_rules! $name { ($$($$it:tt)*) => {} }
        )*
    };
}
written! { dbg eprint eprintln is_x86_feature_detected print println }

#[macro_export]
macro_rules! thread_local {
    ($($(#[$a:meta])* $v:vis static $name:ident: $t:ty $(= $e:expr)?);* $(;)?) => {
        $($(#[$a])* $v const $name: $t = $($e)?;)*
    };
}
