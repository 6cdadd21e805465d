//! A load as the Rust has it: seats alone. For the other judge oracle/both/load.rs stands in its place.

/// Seats and wheelchair places.
pub type Pair = [i32; 2];

/// What a customer asks for, beside what a vehicle holds.
pub fn asked(asked: Pair, _: Pair) -> i32 {
    asked[0]
}

/// The capacity of a vehicle that holds so much.
pub fn capacity(held: Pair) -> i32 {
    held[0]
}
