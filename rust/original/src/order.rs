//! The order in which blocks are visited. What is compared does not depend on it.

use std::cell::Cell;

#[derive(Clone, Copy, Debug, PartialEq, Eq)]
pub enum Order {
    ReversePostOrder,
    PostOrder,
    ByIndex,
    Shuffled(u64),
}

thread_local! {
    static ASKED: Cell<Order> = Cell::new(Order::ReversePostOrder)
}

/// Asks for an order, for what this thread analyses next.
pub fn ask(order: Order) {
    ASKED.with(|asked| asked.set(order));
}

pub fn asked() -> Order {
    ASKED.with(|asked| asked.get())
}

/// Puts `items` into an order that depends on the seed alone.
pub fn shuffle<T>(seed: u64, items: &mut [T]) {
    let mut state = seed | 1;
    for last in (1..items.len()).rev() {
        state ^= state << 13;
        state ^= state >> 7;
        state ^= state << 17;
        items.swap(last, (state % (last as u64 + 1)) as usize);
    }
}
