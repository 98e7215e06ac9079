//! Memory to lend: on the heap, or between protected pages, where a byte read or written outside of what was lent ends the
//! run.

use std::cell::Cell;
use std::ffi::{c_int, c_void};
use std::io::Write;
use std::ops::Range;
use std::ptr::null_mut;
use std::slice::{from_raw_parts, from_raw_parts_mut};

/// One slice that can be lent.
pub trait Memory {
    /// From now on it holds just these bytes.
    fn hold(&mut self, bytes: &[u8]);
    fn bytes(&self) -> &[u8];
    /// To change what it holds, while it is not lent.
    fn bytes_mut(&mut self) -> &mut [u8];
    /// To lend for reading alone.
    fn shared(&mut self) -> &[u8];
    /// To lend for writing.
    fn exclusive(&mut self) -> &mut [u8];
}

impl Memory for Vec<u8> {
    fn hold(&mut self, bytes: &[u8]) {
        *self = bytes.to_vec(); // a new allocation of just this length, so that memcheck knows its ends
    }

    fn bytes(&self) -> &[u8] {
        self
    }

    fn bytes_mut(&mut self) -> &mut [u8] {
        self
    }

    fn shared(&mut self) -> &[u8] {
        self
    }

    fn exclusive(&mut self) -> &mut [u8] {
        self
    }
}

/// Which end of a slice touches a protected page. The other end has unprotected bytes next to it.
#[derive(Clone, Copy, Debug, PartialEq, Eq)]
pub enum Side {
    Start,
    End,
}

/// A slice between protected pages; write-protected itself while it is lent for reading alone.
pub struct Guarded {
    side: Side,
    /// Whole pages, with a protected one before and one after.
    room: *mut u8,
    room_len: usize,
    /// The same pages elsewhere, never protected, so that no access has to change where a test looks at them or sets them. Of `zeros`
    /// the room itself.
    own: *mut u8,
    len: usize,
    access: Access,
    sealed: bool,
    /// Parts of it, of whole pages, to which no more access than this is given.
    limited: Vec<(Range<usize>, Access)>,
}

#[derive(Clone, Copy, PartialEq, Eq)]
enum Access {
    None = PROT_NONE as isize,
    Read = PROT_READ as isize,
    Write = (PROT_READ | PROT_WRITE) as isize,
}

const PAGE: usize = 4096;

impl Guarded {
    pub fn new(side: Side) -> Guarded {
        Guarded::twice(side, PAGE)
    }

    /// A slice of zeros, of which only the pages that are touched take memory (large ones, where there are such).
    pub fn zeros(side: Side, len: usize) -> Guarded {
        let mut zeros = Guarded::map(side, len, MAP_PRIVATE);
        zeros.len = len;
        // In large pages, where there are such, so that gigabytes of zeros are soon read.
        // SAFETY: advice on the room's own pages, which need not be taken.
        unsafe { madvise(zeros.room.cast(), zeros.room_len, MADV_HUGEPAGE) };
        zeros
    }

    /// A slice of which no byte may be read or written.
    pub fn sealed(len: usize) -> Guarded {
        let mut sealed = Guarded::zeros(Side::Start, len);
        sealed.sealed = true;
        sealed
    }

    /// A slice of length 0, with room for more, in pages that are mapped twice.
    fn twice(side: Side, len: usize) -> Guarded {
        let mut guarded = Guarded::map(side, len, MAP_SHARED);
        let (room, room_len) = (guarded.room.cast(), guarded.room_len);
        // SAFETY: from a length of 0 the pages are mapped a second time, and stay where they are.
        let own = unsafe { mremap(room, 0, room_len, MREMAP_MAYMOVE) };
        assert_ne!(own as isize, -1, "mremap");
        guarded.own = own.cast();
        // SAFETY: these new pages.
        let changed = unsafe { mprotect(own, room_len, Access::Write as c_int) };
        assert_eq!(changed, 0, "mprotect");
        guarded
    }

    /// The same in pages that are mapped once, private or to be shared.
    fn map(side: Side, len: usize, sharing: c_int) -> Guarded {
        let room_len = len.next_multiple_of(PAGE);
        // SAFETY: new pages.
        let all = unsafe {
            mmap(
                null_mut(),
                room_len + 2 * PAGE,
                PROT_NONE,
                sharing | MAP_ANONYMOUS | MAP_NORESERVE,
                -1,
                0,
            )
        };
        assert_ne!(all as isize, -1, "mmap");
        let room = all.cast::<u8>().wrapping_add(PAGE);
        Guarded {
            side,
            room,
            room_len,
            own: room,
            len: 0,
            access: Access::None,
            sealed: false,
            limited: Vec::new(),
        }
    }

    /// From now on no byte of this part may be read or written, until `open`. It keeps what it holds.
    pub fn close(&mut self, part: Range<usize>) {
        self.limit(part, Access::None);
    }

    /// From now on no byte of this part may be written, until `open`.
    pub fn keep(&mut self, part: Range<usize>) {
        self.limit(part, Access::Read);
    }

    pub fn open(&mut self) {
        self.limited.clear();
        self.access = Access::None;
        self.allow(Access::Write);
    }

    fn limit(&mut self, part: Range<usize>, most: Access) {
        let start = self.start() as usize + part.start;
        assert!(part.end <= self.len, "a part of it");
        assert_eq!((start % PAGE, part.len() % PAGE), (0, 0), "whole pages");
        if !part.is_empty() {
            self.protect(part.clone(), most);
            self.limited.push((part, most));
        }
    }

    fn protect(&self, part: Range<usize>, access: Access) {
        let start = self.start().wrapping_add(part.start);
        // SAFETY: the room's own pages; who touches them as he may not ends the run.
        let changed = unsafe { mprotect(start.cast(), part.len(), access as c_int) };
        assert_eq!(changed, 0, "mprotect");
    }

    fn allow(&mut self, access: Access) {
        if self.access != access && !self.sealed {
            // SAFETY: the room's own pages, borrowed exclusively.
            let changed = unsafe { mprotect(self.room.cast(), self.room_len, access as c_int) };
            assert_eq!(changed, 0, "mprotect");
            self.access = access;
            for (part, most) in &self.limited {
                self.protect(part.clone(), *most);
            }
        }
    }

    /// Where the slice begins in the room.
    fn at(&self) -> usize {
        match self.side {
            Side::Start => 0,
            Side::End => self.room_len - self.len,
        }
    }

    fn start(&self) -> *mut u8 {
        self.room.wrapping_add(self.at())
    }
}

impl Memory for Guarded {
    fn hold(&mut self, bytes: &[u8]) {
        if bytes.len() > self.room_len {
            *self = Guarded::twice(self.side, bytes.len());
        }
        self.len = bytes.len();
        self.bytes_mut().copy_from_slice(bytes);
    }

    fn bytes(&self) -> &[u8] {
        // SAFETY: within the own pages, readable unless sealed, and borrowed from self.
        unsafe { from_raw_parts(self.own.wrapping_add(self.at()), self.len) }
    }

    fn bytes_mut(&mut self) -> &mut [u8] {
        if self.own == self.room {
            self.allow(Access::Write);
        }
        // SAFETY: within the own pages, writable unless sealed, and borrowed exclusively from self.
        unsafe { from_raw_parts_mut(self.own.wrapping_add(self.at()), self.len) }
    }

    fn shared(&mut self) -> &[u8] {
        self.allow(Access::Read);
        // SAFETY: within the room, readable unless sealed, and borrowed from self.
        unsafe { from_raw_parts(self.start(), self.len) }
    }

    fn exclusive(&mut self) -> &mut [u8] {
        self.allow(Access::Write);
        // SAFETY: within the room, writable unless sealed, and borrowed exclusively from self.
        unsafe { from_raw_parts_mut(self.start(), self.len) }
    }
}

impl Drop for Guarded {
    fn drop(&mut self) {
        let start = self.room.wrapping_sub(PAGE);
        // SAFETY: the pages of `map` and of `twice`, to which no reference is left.
        unsafe {
            if self.own != self.room {
                assert_eq!(munmap(self.own.cast(), self.room_len), 0, "munmap");
            }
            assert_eq!(munmap(start.cast(), self.room_len + 2 * PAGE), 0, "munmap");
        }
    }
}

thread_local! {
    static DOING: Cell<u64> = const { Cell::new(0) };
}

/// Until the next call, a fault in this thread tells this seed. (What a test has printed is lost when it ends by a fault.)
pub fn on_fault_tell(seed: u64) {
    DOING.set(seed);
    // SAFETY: a handler that only writes and ends the process.
    unsafe {
        signal(SIGSEGV, fault);
        signal(SIGBUS, fault);
    }
}

extern "C" fn fault(_: c_int) {
    let mut text = [0u8; 160];
    let mut rest = &mut text[..];
    let _ = writeln!(
        rest,
        "\na byte outside of what was lent was touched, or one lent for reading alone was written: SEED={}",
        DOING.get()
    );
    let len = 160 - rest.len();
    // SAFETY: both may be called from a handler.
    unsafe {
        write(2, text.as_ptr().cast(), len);
        _exit(1);
    }
}

const PROT_NONE: c_int = 0;
const PROT_READ: c_int = 1;
const PROT_WRITE: c_int = 2;
const MAP_SHARED: c_int = 0x01;
const MAP_PRIVATE: c_int = 0x02;
const MAP_ANONYMOUS: c_int = 0x20;
const MAP_NORESERVE: c_int = 0x4000;
const MREMAP_MAYMOVE: c_int = 1;
const MADV_HUGEPAGE: c_int = 14;
const SIGBUS: c_int = 7;
const SIGSEGV: c_int = 11;

// The C library's, as Linux on x86-64 has them.
extern "C" {
    fn mmap(
        address: *mut c_void,
        len: usize,
        access: c_int,
        flags: c_int,
        file: c_int,
        offset: i64,
    ) -> *mut c_void;
    fn mremap(address: *mut c_void, len: usize, new_len: usize, flags: c_int, ...) -> *mut c_void;
    fn munmap(address: *mut c_void, len: usize) -> c_int;
    fn mprotect(address: *mut c_void, len: usize, access: c_int) -> c_int;
    fn madvise(address: *mut c_void, len: usize, advice: c_int) -> c_int;
    fn signal(number: c_int, handler: extern "C" fn(c_int)) -> usize;
    fn write(file: c_int, bytes: *const c_void, len: usize) -> isize;
    fn _exit(status: c_int) -> !;
}
