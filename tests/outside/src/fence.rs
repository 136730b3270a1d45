//! Memory that ends where a page begins that nobody may touch: a call that reads or writes one element too far is stopped there.

use std::ffi::c_int;
use std::sync::atomic::{AtomicPtr, AtomicU64, Ordering};

extern "C" {
    fn mmap(at: *mut u8, length: usize, protection: c_int, flags: c_int, file: c_int, offset: i64) -> *mut u8;
    fn mprotect(at: *mut u8, length: usize, protection: c_int) -> c_int;
    fn signal(number: c_int, handler: extern "C" fn(c_int)) -> usize;
    fn _exit(status: c_int) -> !;
}

const PAGE: usize = 65_536;
const CAPACITY: usize = 96 << 20;
const READ_WRITE: c_int = 3;
const PRIVATE_ANONYMOUS_LAZY: c_int = 0x4022;

pub struct Fence {
    end: *mut u8,
}

impl Fence {
    pub fn new() -> Fence {
        unsafe {
            let at = mmap(std::ptr::null_mut(), CAPACITY + PAGE, READ_WRITE, PRIVATE_ANONYMOUS_LAZY, -1, 0);
            assert!(at as isize != -1, "no memory");
            assert!(mprotect(at.add(CAPACITY), PAGE, 0) == 0, "no fence");
            Fence { end: at.add(CAPACITY) }
        }
    }

    /// Copies the elements so that the last one ends at the fence.
    pub fn lend<T: Copy>(&self, elements: &[T]) -> *mut T {
        let bytes = std::mem::size_of_val(elements);
        assert!(bytes <= CAPACITY);
        unsafe {
            let start = self.end.sub(bytes) as *mut T;
            std::ptr::copy_nonoverlapping(elements.as_ptr(), start, elements.len());
            start
        }
    }

    /// The last elements before the fence, as they are now.
    pub fn now<T: Copy>(&self, length: usize) -> &[T] {
        unsafe { std::slice::from_raw_parts(self.end.sub(length * size_of::<T>()) as *const T, length) }
    }
}

static SEED: AtomicU64 = AtomicU64::new(0);
static CALL: AtomicPtr<&'static str> = AtomicPtr::new(std::ptr::null_mut());
static FAMILY: AtomicPtr<&'static str> = AtomicPtr::new(std::ptr::null_mut());

/// Says what runs now, for the message of a call that hits a fence.
pub fn mark(family: &'static &'static str, call: &'static &'static str, seed: u64) {
    SEED.store(seed, Ordering::Relaxed);
    FAMILY.store(family as *const _ as *mut _, Ordering::Relaxed);
    CALL.store(call as *const _ as *mut _, Ordering::Relaxed);
}

extern "C" fn stopped(number: c_int) {
    let name = |at: &AtomicPtr<&'static str>| unsafe { at.load(Ordering::Relaxed).as_ref().copied().unwrap_or("?") };
    let (family, call, seed) = (name(&FAMILY), name(&CALL), SEED.load(Ordering::Relaxed));
    eprintln!("FAILED: {call} was stopped by signal {number}; again: --only {family} --seed {seed} --cases 1 --show");
    unsafe { _exit(1) }
}

/// Has a call that hits a fence, or a bad instruction, name itself and its seed.
pub fn watch() {
    for number in [4, 7, 8, 11] {
        unsafe { signal(number, stopped) };
    }
}
