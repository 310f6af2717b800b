#[derive(Clone, Copy)]
pub struct Price(u32);

impl Price {
    pub fn of(cents: u32) -> Price {
        Price(cents)
    }

    pub fn total(self) -> u32 {
        self.0
    }
}

pub(super) fn tax(price: Price) -> Price {
    Price(price.0 / 5)
}
