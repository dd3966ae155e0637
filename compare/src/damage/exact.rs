//! The ground for valgrind: each slice is an allocation of exactly its size, so that a read or a
//! write beside it is an error that valgrind tells. That read-only slices are not written is seen by
//! comparing them afterwards.

use super::boundary::Slice;
use super::ground::{Access, Ground};
use std::alloc::{alloc, dealloc, handle_alloc_error, Layout};

#[derive(Default)]
pub struct Exact {
    lent: Vec<(*mut u8, Layout)>,
}

impl Ground for Exact {
    fn name(&self) -> &'static str {
        "exact allocations"
    }

    fn lend<T: Copy>(&mut self, content: &[T], _: Access) -> Slice<T> {
        let length = content.len();
        if length == 0 {
            let start = std::ptr::NonNull::dangling().as_ptr();
            return Slice { start, length };
        }
        let layout = Layout::for_value(content);
        // SAFETY: the layout is not empty, and the allocation is as large as the content.
        let start = unsafe {
            let start = alloc(layout).cast::<T>();
            if start.is_null() {
                handle_alloc_error(layout);
            }
            start.copy_from_nonoverlapping(content.as_ptr(), length);
            start
        };
        self.lent.push((start.cast(), layout));
        Slice { start, length }
    }

    fn take_back(&mut self) {
        for (start, layout) in self.lent.drain(..) {
            // SAFETY: allocated above with this layout, and forgotten here.
            unsafe { dealloc(start, layout) };
        }
    }
}
