//! A stand-in for the crates `num` and `num_traits`: the one trait that the crate's files use of either.

pub trait Zero {
    fn is_zero(&self) -> bool;
}

impl Zero for f32 {
    fn is_zero(&self) -> bool {
        *self == 0.0
    }
}
