use codec::prelude::*;

use crate::price::*;

ids! { OrderId ItemId }

#[derive(Clone, Codec)]
#[codec(tag = "o")]
pub struct Order {
    pub id: OrderId,
    price: Price,
}

#[derive(Codec)]
pub enum Item {
    Book,
    #[codec(skip)]
    Gift,
}

impl Order {
    #[codec::traced]
    pub fn new(count: u32) -> Order {
        let price = Price::of(2 * count);
        Order { id: OrderId(count), price }
    }

    pub fn total(&self) -> u32 {
        self.price.total()
    }
}
