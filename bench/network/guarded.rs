//! Memory for a lent slice between pages that nobody may touch: a read or write of one element too many ends the program. A slice that does not
//! fill its pages stands against the page behind it or the one before it, in turn.
use std::ops::{Deref, DerefMut};
use std::sync::atomic::{AtomicBool, Ordering::Relaxed};

const PAGE: usize = 4096;
const NONE: i32 = 0;
const READ_WRITE: i32 = 3;
const PRIVATE_ANONYMOUS: i32 = 0x22;

unsafe extern "C" {
    fn mmap(at: *mut u8, bytes: usize, allowed: i32, kind: i32, file: i32, from: i64) -> *mut u8;
    fn mprotect(at: *mut u8, bytes: usize, allowed: i32) -> i32;
    fn munmap(at: *mut u8, bytes: usize) -> i32;
}

static BEHIND: AtomicBool = AtomicBool::new(false);

/// A slice of numbers on pages of its own.
pub struct Table<T> {
    pages: *mut u8,
    bytes: usize,
    first: *mut T,
    len: usize,
}

impl<T: Copy> From<Vec<T>> for Table<T> {
    fn from(values: Vec<T>) -> Self {
        Self::standing(&values, BEHIND.fetch_xor(true, Relaxed))
    }
}

impl<T: Copy> Table<T> {
    /// Against the page behind it, or the one before it.
    pub fn standing(values: &[T], behind: bool) -> Self {
        let used = size_of_val(values);
        let inner = used.next_multiple_of(PAGE);
        let bytes = inner + 2 * PAGE;
        // Safe: the pages are this table's alone, and the slice lies within the inner ones, at an address that T can have.
        unsafe {
            let pages = mmap(std::ptr::null_mut(), bytes, NONE, PRIVATE_ANONYMOUS, -1, 0);
            assert!(pages as isize != -1, "no memory");
            if inner > 0 {
                assert_eq!(mprotect(pages.add(PAGE), inner, READ_WRITE), 0);
            }
            let first = pages.add(PAGE + if behind { inner - used } else { 0 }).cast::<T>();
            first.copy_from_nonoverlapping(values.as_ptr(), values.len());
            Self { pages, bytes, first, len: values.len() }
        }
    }

    /// The same numbers, cut off or followed by others.
    pub fn resize(&mut self, len: usize, other: T) {
        let mut values = self.to_vec();
        values.resize(len, other);
        *self = values.into();
    }

    pub fn bytes(&self) -> &[u8] {
        // Safe: the numbers are plain ones.
        unsafe { std::slice::from_raw_parts(self.first.cast(), size_of_val(&**self)) }
    }
}

impl<T> Deref for Table<T> {
    type Target = [T];
    fn deref(&self) -> &[T] {
        unsafe { std::slice::from_raw_parts(self.first, self.len) }
    }
}

impl<T> DerefMut for Table<T> {
    fn deref_mut(&mut self) -> &mut [T] {
        unsafe { std::slice::from_raw_parts_mut(self.first, self.len) }
    }
}

impl<T> Drop for Table<T> {
    fn drop(&mut self) {
        assert_eq!(unsafe { munmap(self.pages, self.bytes) }, 0);
    }
}
