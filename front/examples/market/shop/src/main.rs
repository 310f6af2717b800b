use shop::{all::*, report::report};

fn main() {
    print!("{}", report(&[Order::new(1), Order::new(2)]));
}
