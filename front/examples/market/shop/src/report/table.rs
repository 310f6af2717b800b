pub(super) fn row(price: u32, tax: u32) -> String {
    format!("{price} {tax}")
}
