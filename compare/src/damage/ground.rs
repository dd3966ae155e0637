//! Where the slices of a case lie. A ground lends copies, and takes all of them back at once.

use super::boundary::Slice;

#[derive(Clone, Copy, PartialEq, Eq)]
pub enum Access {
    Read,
    Write,
}

pub trait Ground {
    fn name(&self) -> &'static str;

    /// Lends a copy of the content in a place of its own.
    fn lend<T: Copy>(&mut self, content: &[T], access: Access) -> Slice<T>;

    /// Nothing is lent any longer.
    fn take_back(&mut self);
}
