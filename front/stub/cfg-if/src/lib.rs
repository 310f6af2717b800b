//! Stands for the crate `cfg_if` that the standard library is written with, where only its own sources are there.
#![no_std]

#[macro_export]
macro_rules! cfg_if {
    ($(if #[cfg($meta:meta)] { $($tokens:tt)* }) else * else { $($rest:tt)* }) => {
        $crate::cfg_if! { @__items () ; $((($meta) ($($tokens)*)),)* (() ($($rest)*)), }
    };
    (if #[cfg($i_met:meta)] { $($i_tokens:tt)* } $(else if #[cfg($e_met:meta)] { $($e_tokens:tt)* })*) => {
        $crate::cfg_if! {
            @__items () ; (($i_met) ($($i_tokens)*)), $((($e_met) ($($e_tokens)*)),)* (() ()),
        }
    };
    (@__items ($($not:meta,)*) ; ) => {};
    (@__items ($($not:meta,)*) ; (($($m:meta),*) ($($tokens:tt)*)), $($rest:tt)*) => {
        #[cfg(all($($m,)* not(any($($not),*))))] $crate::cfg_if! { @__identity $($tokens)* }
        $crate::cfg_if! { @__items ($($not,)* $($m,)*) ; $($rest)* }
    };
    (@__identity $($tokens:tt)*) => { $($tokens)* };
}
