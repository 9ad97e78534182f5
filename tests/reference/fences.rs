//! Memory that ends right before a page that may not be touched: a byte read or written too far ends the program, and `--trace` has named the case.

use std::cell::RefCell;
use std::ffi::{c_int, c_long, c_void};
use std::ptr::null_mut;

extern "C" {
    fn mmap(start: *mut c_void, length: usize, protection: c_int, flags: c_int, file: c_int, offset: c_long) -> *mut c_void;
    fn mprotect(start: *mut c_void, length: usize, protection: c_int) -> c_int;
}

const NONE: c_int = 0;
const READ_AND_WRITE: c_int = 3;
const PRIVATE_AND_ANONYMOUS: c_int = 0x22;

/// A multiple of every size that pages have.
const PAGE: usize = 1 << 16;

/// More than is ever lent.
const MOST: usize = 1 << 20;

struct Fence(*mut u8);

impl Fence {
    fn new() -> Fence {
        let start = unsafe { mmap(null_mut(), MOST + PAGE, READ_AND_WRITE, PRIVATE_AND_ANONYMOUS, -1, 0) } as *mut u8;
        assert!(start as isize != -1 && unsafe { mprotect(start.add(MOST) as *mut c_void, PAGE, NONE) } == 0, "no fence");
        Fence(start)
    }

    /// A copy of the bytes that ends at the fence.
    fn lend(&mut self, bytes: &[u8]) -> &mut [u8] {
        assert!(bytes.len() <= MOST, "too long for a fence");
        let lent = unsafe { std::slice::from_raw_parts_mut(self.0.add(MOST - bytes.len()), bytes.len()) };
        lent.copy_from_slice(bytes);
        lent
    }
}

thread_local! {
    static FENCES: RefCell<[Fence; 2]> = RefCell::new([Fence::new(), Fence::new()]);
}

/// A call on an input and a buffer that both end at a fence; gives its answer and the buffer after it.
pub fn between<A>(input: &[u8], buffer: &[u8], call: impl Fn(&[u8], &mut [u8]) -> A) -> (A, Vec<u8>) {
    FENCES.with_borrow_mut(|[first, second]| {
        let (input, buffer) = (first.lend(input), second.lend(buffer));
        (call(input, buffer), buffer.to_vec())
    })
}
