//! Values as texts.

pub use derive::{traced, Codec};

#[macro_use]
mod macros;
#[path = "numbers/all.rs"]
#[cfg(feature = "numbers")]
pub mod numbers;

pub trait Codec {}

codecs! { bool char }

pub mod prelude {
    pub use crate::{Codec as _, codecs};
    pub use super::Codec;
}
