//! Stands in for the crate zeroize: the wrapper of secret bytes, which here are not erased.

#[derive(Clone, PartialEq, Eq)]
pub struct Zeroizing<Z>(Z);

impl<Z> Zeroizing<Z> {
    pub fn new(value: Z) -> Zeroizing<Z> {
        Zeroizing(value)
    }
}

impl<Z> std::ops::Deref for Zeroizing<Z> {
    type Target = Z;

    fn deref(&self) -> &Z {
        &self.0
    }
}
