//! The ground with guard pages, for Linux on x86-64: each slice lies flush against a page that can
//! be neither read nor written, with its end or with its start. What a search may only read lies on
//! pages that can be read alone; they are filled through a second view of the same memory.

use super::boundary::Slice;
use super::ground::{Access, Ground};
use std::ffi::{c_char, c_int, c_void};

/// Which end of a slice is flush.
#[derive(Clone, Copy, PartialEq, Eq)]
pub enum Flush {
    End,
    Start,
}

/// Room for the columns of 65,536 cells.
const ROOM: usize = 1 << 18;
const PAGE: usize = 4096;

/// A search reads seven slices, a build writes eleven.
const READ_ROOMS: usize = 7;
const WRITE_ROOMS: usize = 11;

pub struct Guarded {
    flush: Flush,
    read: Vec<Room>,
    write: Vec<Room>,
    read_used: usize,
    write_used: usize,
}

impl Guarded {
    pub fn new(flush: Flush) -> Result<Guarded, String> {
        let rooms = |count: usize, access| (0..count).map(move |_| Room::new(access));
        Ok(Guarded {
            flush,
            read: rooms(READ_ROOMS, Access::Read).collect::<Result<_, _>>()?,
            write: rooms(WRITE_ROOMS, Access::Write).collect::<Result<_, _>>()?,
            read_used: 0,
            write_used: 0,
        })
    }
}

impl Ground for Guarded {
    fn name(&self) -> &'static str {
        match self.flush {
            Flush::End => "guarded, ends flush",
            Flush::Start => "guarded, starts flush",
        }
    }

    fn lend<T: Copy>(&mut self, content: &[T], access: Access) -> Slice<T> {
        let (rooms, used) = match access {
            Access::Read => (&self.read, &mut self.read_used),
            Access::Write => (&self.write, &mut self.write_used),
        };
        let room = &rooms[*used];
        *used += 1;
        room.hold(content, self.flush)
    }

    fn take_back(&mut self) {
        self.read_used = 0;
        self.write_used = 0;
    }
}

/// Memory that is seen twice: by us to fill it, and between guard pages to lend it.
struct Room {
    ours: *mut u8,
    lent: *mut u8,
}

impl Room {
    fn new(access: Access) -> Result<Room, String> {
        let lent_access = match access {
            Access::Read => PROT_READ,
            Access::Write => PROT_READ | PROT_WRITE,
        };
        let both = PROT_READ | PROT_WRITE;
        // SAFETY: the fixed mapping replaces pages of the reservation that was just made, and
        // nothing else. No mapping is ever undone.
        unsafe {
            let file = memfd_create(c"room".as_ptr(), 0);
            if file < 0 || ftruncate(file, ROOM as i64) != 0 {
                return Err("no memory for a room".to_string());
            }
            let ours = map(std::ptr::null_mut(), ROOM, both, MAP_SHARED, file)?;
            let hidden = MAP_PRIVATE | MAP_ANONYMOUS;
            let whole = map(std::ptr::null_mut(), ROOM + 2 * PAGE, PROT_NONE, hidden, -1)?;
            let fixed = MAP_SHARED | MAP_FIXED;
            let lent = map(whole.add(PAGE), ROOM, lent_access, fixed, file)?;
            Ok(Room { ours, lent })
        }
    }

    fn hold<T: Copy>(&self, content: &[T], flush: Flush) -> Slice<T> {
        let size = std::mem::size_of_val(content);
        assert!(size <= ROOM, "a slice is larger than its room");
        let offset = match flush {
            Flush::End => ROOM - size,
            Flush::Start => 0,
        };
        // SAFETY: offset and size stay in the room, which our view can write. Sizes are multiples
        // of the alignment and rooms begin at pages, so both ways to lie are aligned.
        unsafe {
            let ours = self.ours.add(offset);
            ours.copy_from_nonoverlapping(content.as_ptr().cast(), size);
            Slice {
                start: self.lent.add(offset).cast(),
                length: content.len(),
            }
        }
    }
}

unsafe fn map(
    at: *mut u8,
    size: usize,
    access: c_int,
    flags: c_int,
    file: c_int,
) -> Result<*mut u8, String> {
    let start = mmap(at.cast(), size, access, flags, file, 0);
    if start as isize == -1 {
        return Err("a room cannot be mapped".to_string());
    }
    Ok(start.cast())
}

const PROT_NONE: c_int = 0;
const PROT_READ: c_int = 1;
const PROT_WRITE: c_int = 2;
const MAP_SHARED: c_int = 1;
const MAP_PRIVATE: c_int = 2;
const MAP_FIXED: c_int = 0x10;
const MAP_ANONYMOUS: c_int = 0x20;

extern "C" {
    fn memfd_create(name: *const c_char, flags: u32) -> c_int;
    fn ftruncate(file: c_int, size: i64) -> c_int;
    fn mmap(
        at: *mut c_void,
        size: usize,
        access: c_int,
        flags: c_int,
        file: c_int,
        offset: i64,
    ) -> *mut c_void;
}
