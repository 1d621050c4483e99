//! Stands in for bytes: moving the start of a slice.

pub trait Buf {
    fn advance(&mut self, count: usize);
}

impl Buf for &[u8] {
    fn advance(&mut self, count: usize) {
        *self = &self[count..];
    }
}
