//! Loaded before a program (LD_PRELOAD), it refuses memory to it: the allocation whose number REFUSE_FROM names, and those
//! behind it up to REFUSE_TO. Calls of `malloc` and `realloc` are numbered from 1, as they come. Each refusal writes a byte
//! to the file that REFUSE_TOLD names by its number.
use std::ffi::{CStr, c_char, c_int, c_void};
use std::sync::atomic::{AtomicU64, Ordering};

unsafe extern "C" {
    fn __libc_malloc(size: usize) -> *mut c_void;
    fn __libc_realloc(at: *mut c_void, size: usize) -> *mut c_void;
    fn getenv(name: *const c_char) -> *const c_char;
    fn atoll(text: *const c_char) -> i64;
    fn write(file: c_int, bytes: *const c_void, len: usize) -> isize;
}

static CALLS: AtomicU64 = AtomicU64::new(0);

/// The number that a variable of the environment holds; 0 where it is not set.
fn number(name: &CStr) -> u64 {
    // SAFETY: the name ends in a zero byte, and so does what getenv gives.
    let text = unsafe { getenv(name.as_ptr()) };
    if text.is_null() { 0 } else { unsafe { atoll(text) as u64 } }
}

/// Counts a call, and tells whether it is to be refused.
fn refuses() -> bool {
    let call = CALLS.fetch_add(1, Ordering::Relaxed) + 1;
    let refused = (number(c"REFUSE_FROM")..=number(c"REFUSE_TO")).contains(&call);
    if refused {
        // SAFETY: one byte is lent.
        unsafe { write(number(c"REFUSE_TOLD") as c_int, c".".as_ptr().cast(), 1) };
    }
    refused
}

/// # Safety
/// As `malloc` of the C library.
#[unsafe(no_mangle)]
pub unsafe extern "C" fn malloc(size: usize) -> *mut c_void {
    if refuses() { std::ptr::null_mut() } else { unsafe { __libc_malloc(size) } }
}

/// # Safety
/// As `realloc` of the C library.
#[unsafe(no_mangle)]
pub unsafe extern "C" fn realloc(at: *mut c_void, size: usize) -> *mut c_void {
    if refuses() { std::ptr::null_mut() } else { unsafe { __libc_realloc(at, size) } }
}
