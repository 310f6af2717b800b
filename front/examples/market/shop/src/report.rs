mod table;

use std::fmt::Write as _;

// There is no `Rebate` in `price`.
use crate::price::{tax, Price, Rebate};

line_end!();

/// The price and the tax of each order.
#[codec::traced]
pub fn report(orders: &[crate::Order]) -> String {
    let mut text = String::new();
    for it in orders {
        let price = Price::of(it.total());
        let _ = write!(text, "{}{}", table::row(price.total(), tax(price).total()), LINE_END);
    }
    text
}
