//! Buffers between unreadable pages: a byte read or written beyond a buffer's edge ends the program.
//!
//! Only one edge of a buffer can lie at a page's end, so each buffer is lent at one edge or the other by turns. On the
//! side that is not guarded, bytes of a known value are looked at after the call.

use std::ffi::{c_int, c_void};

const PAGE: usize = 4096;

/// How many bytes beside a buffer are looked at.
const MARGIN: usize = 2 * PAGE;

/// What they hold.
const CANARY: u8 = 0xC7;

const PROT_NONE: c_int = 0;
const PROT_READ: c_int = 1;
const PROT_WRITE: c_int = 2;
const MAP_PRIVATE: c_int = 2;
const MAP_ANONYMOUS: c_int = 0x20;

unsafe extern "C" {
    fn mmap(at: *mut c_void, len: usize, prot: c_int, flags: c_int, fd: c_int, offset: i64) -> *mut c_void;
    fn mprotect(at: *mut c_void, len: usize, prot: c_int) -> c_int;
}

/// Which edge of the buffer lies at an unreadable page.
#[derive(Clone, Copy, Debug, PartialEq, Eq)]
pub enum Edge {
    First,
    Last,
}

/// Memory for one buffer, with an unreadable page before it and one behind it. It is never given back.
pub struct Guarded {
    first: *mut u8,
    room: usize,
    start: usize,
    len: usize,
}

impl Guarded {
    /// Room for buffers of at most so many bytes.
    pub fn new(most: usize) -> Guarded {
        let room = (most + MARGIN).next_multiple_of(PAGE);
        // SAFETY: a new mapping that overlaps nothing; its result is tested.
        let whole =
            unsafe { mmap(std::ptr::null_mut(), room + 2 * PAGE, PROT_NONE, MAP_PRIVATE | MAP_ANONYMOUS, -1, 0) };
        assert!(whole as isize != -1, "mmap of {room} bytes failed: {}", std::io::Error::last_os_error());
        // SAFETY: within the mapping, behind its first page.
        let first = unsafe { whole.cast::<u8>().add(PAGE) };
        let mut guarded = Guarded { first, room, start: 0, len: 0 };
        guarded.protect(PROT_READ | PROT_WRITE);
        guarded.place(0, Edge::First);
        guarded
    }

    /// Makes the buffer one of so many bytes at this edge, and marks the bytes beside it.
    pub fn place(&mut self, len: usize, edge: Edge) {
        assert!(len + MARGIN <= self.room, "a buffer of {len} bytes, and room for {} only", self.room - MARGIN);
        self.len = len;
        self.start = match edge {
            Edge::First => 0,
            Edge::Last => self.room - len,
        };
        let beside = self.beside();
        self.all()[beside].fill(CANARY);
    }

    pub fn bytes(&mut self) -> &mut [u8] {
        let (start, len) = (self.start, self.len);
        &mut self.all()[start..start + len]
    }

    /// Whether the bytes beside the buffer are as they were marked.
    pub fn beside_is_untouched(&mut self) -> bool {
        let beside = self.beside();
        self.all()[beside].iter().all(|byte| *byte == CANARY)
    }

    /// While this is on, writing to the buffer ends the program.
    pub fn read_only(&mut self, on: bool) {
        self.protect(if on { PROT_READ } else { PROT_READ | PROT_WRITE });
    }

    fn beside(&self) -> std::ops::Range<usize> {
        if self.start == 0 { self.len..(self.len + MARGIN).min(self.room) } else { self.start - MARGIN..self.start }
    }

    fn all(&mut self) -> &mut [u8] {
        // SAFETY: the mapping's inner pages, readable and writable (a call with them read-only borrows nothing here).
        unsafe { std::slice::from_raw_parts_mut(self.first, self.room) }
    }

    fn protect(&mut self, prot: c_int) {
        // SAFETY: whole pages of our own mapping.
        let done = unsafe { mprotect(self.first.cast(), self.room, prot) };
        assert!(done == 0, "mprotect failed: {}", std::io::Error::last_os_error());
    }
}
