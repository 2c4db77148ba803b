//! Pages of memory between two pages that may not be touched.
//!
//! A buffer is placed right behind the first or right before the second of them, so that an access
//! outside it on that side stops the program; the handler below then says where that was.

use std::io::Write;
use std::sync::atomic::{AtomicPtr, AtomicUsize, Ordering::Relaxed};

pub const PAGE: usize = 4096;

/// The exit status after an access outside a buffer.
pub const OUT_OF_BOUNDS: i32 = 3;

extern "C" {
    fn mmap(at: *mut u8, len: usize, access: i32, flags: i32, file: i32, from: i64) -> *mut u8;
    fn mprotect(at: *mut u8, len: usize, access: i32) -> i32;
    fn signal(number: i32, handler: extern "C" fn(i32)) -> usize;
    fn _exit(status: i32) -> !;
}

// Linux on x86-64
const PROT_NONE: i32 = 0;
const PROT_READ_WRITE: i32 = 3;
const MAP_PRIVATE_ANONYMOUS: i32 = 0x22;
const SIGBUS: i32 = 7;
const SIGSEGV: i32 = 11;

#[derive(Clone, Copy, Debug, PartialEq)]
pub enum Side {
    /// The buffer begins where the pages begin.
    Front,
    /// The buffer ends where the pages end.
    Back,
}

pub struct Guarded {
    start: *mut u8,
    len: usize,
}

impl Guarded {
    /// As many pages as hold that many bytes, and one at least.
    pub fn holding(most: usize) -> Self {
        let len = most.max(1).div_ceil(PAGE) * PAGE;
        unsafe {
            signal(SIGSEGV, out_of_bounds);
            signal(SIGBUS, out_of_bounds);
            let flags = MAP_PRIVATE_ANONYMOUS;
            let all = mmap(
                std::ptr::null_mut(),
                len + 2 * PAGE,
                PROT_NONE,
                flags,
                -1,
                0,
            );
            assert!(all as isize != -1, "no memory for the guarded pages");
            let start = all.add(PAGE);
            assert_eq!(mprotect(start, len, PROT_READ_WRITE), 0);
            Guarded { start, len }
        }
    }

    /// The whole of the pages, to be looked at between calls.
    pub fn bytes(&mut self) -> &mut [u8] {
        unsafe { std::slice::from_raw_parts_mut(self.start, self.len) }
    }

    /// Where in the pages a buffer of that length begins.
    pub fn offset(&self, side: Side, len: usize) -> usize {
        match side {
            Side::Front => 0,
            Side::Back => self.len - len,
        }
    }

    /// The buffer's address, for a call that is noted in case it goes outside, with one number more
    /// that tells it from others.
    pub fn lend(&mut self, name: &'static str, side: Side, len: usize, more: usize) -> *mut u8 {
        CALL.store(name.as_ptr() as *mut u8, Relaxed);
        CALL_LEN.store(name.len(), Relaxed);
        BUFFER_LEN.store(len, Relaxed);
        MORE.store(more, Relaxed);
        unsafe { self.start.add(self.offset(side, len)) }
    }
}

// The call that is under way, for the handler.
static CALL: AtomicPtr<u8> = AtomicPtr::new(std::ptr::null_mut());
static CALL_LEN: AtomicUsize = AtomicUsize::new(0);
static BUFFER_LEN: AtomicUsize = AtomicUsize::new(0);
static MORE: AtomicUsize = AtomicUsize::new(0);

extern "C" fn out_of_bounds(_: i32) {
    let call = CALL.load(Relaxed);
    let name = match call.is_null() {
        true => "no call",
        false => unsafe {
            let letters = std::slice::from_raw_parts(call, CALL_LEN.load(Relaxed));
            std::str::from_utf8_unchecked(letters)
        },
    };
    let (len, more) = (BUFFER_LEN.load(Relaxed), MORE.load(Relaxed));
    let _ = writeln!(
        std::io::stderr(),
        "an access outside the buffer: {name}, length {len}, then {more} (the place, or the other \
         buffer's length)"
    );
    unsafe { _exit(OUT_OF_BOUNDS) }
}
