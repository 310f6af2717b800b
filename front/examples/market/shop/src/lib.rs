//! A shop of several files.

macro_rules! ids {
    ($($name:ident)*) => {
        $(#[derive(Clone, Copy)] pub struct $name(u32);)*
    };
}

// Which of the two definitions there is depends on a condition.
macro_rules! choose {
    (if #[$condition:meta] { $($yes:item)* } else { $($no:item)* }) => {
        $(#[cfg($condition)] $yes)*
        $(#[cfg(not($condition))] $no)*
    };
}
choose! {
    if #[unix] { macro_rules! line_end { () => { pub const LINE_END: &str = "\n"; }; } }
    else { macro_rules! line_end { () => { pub const LINE_END: &str = "\r\n"; }; } }
}

pub mod model;
mod price;
pub mod report;

pub use model::{Item as Goods, Order};

pub mod all {
    pub use crate::model::*;
    pub use crate::price::Price;
}

#[cfg(test)]
mod tests {
    use super::all::*;

    #[test]
    fn an_order_has_a_price() {
        assert_eq!(Order::new(2).total(), Price::of(4).total());
    }
}
