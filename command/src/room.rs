//! Memory that is lent to a call.

use std::marker::PhantomData;
use std::ops::{Deref, DerefMut};
use std::ptr::{null_mut, NonNull};
use std::slice;

use crate::error::Error;

/// What can be lent: numbers for which zero bytes are a value.
pub trait Lent: Copy {}
impl Lent for u8 {}
impl Lent for u32 {}

/// The system is asked for pages of so many bytes. It then hands out all of a matte's memory in some ten steps, not in thousands.
const PAGE: usize = 1 << 21;

/// What the system's calls take, on 64-bit Linux.
const READ_WRITE: i32 = 1 | 2;
const OURS_AND_EMPTY: i32 = 2 | 0x20;
const LARGE_PAGES: i32 = 14;

extern "C" {
    fn mmap(near: *mut u8, bytes: usize, access: i32, kind: i32, file: i32, from: i64) -> *mut u8;
    fn munmap(start: *mut u8, bytes: usize) -> i32;
    fn madvise(start: *mut u8, bytes: usize, advice: i32) -> i32;
}

/// Places that were all 0 at first. Their memory goes back to the system with this.
pub struct Room<T: Lent> {
    had: NonNull<u8>,
    bytes: usize,
    places: NonNull<T>,
    count: usize,
    kind: PhantomData<T>,
}

/// So many places, all 0. Where the machine has no more memory, that is said, and the program does not stop short.
pub fn room<T: Lent>(count: usize) -> Result<Room<T>, Error> {
    if count == 0 {
        return Ok(Room::default());
    }
    let bytes = count.saturating_mul(size_of::<T>());
    let none = || Error::refused("memory", format!("{bytes} bytes more are not to be had: ask for fewer levels"));
    // So much that a part of the size begins at a multiple of a page.
    let more = bytes.checked_add(PAGE).ok_or_else(none)?;
    // SAFETY: it asks for memory anywhere. A failure is the address -1.
    let had = unsafe { mmap(null_mut(), more, READ_WRITE, OURS_AND_EMPTY, -1, 0) };
    let had = NonNull::new(had).filter(|had| had.addr().get() != usize::MAX).ok_or_else(none)?;
    // SAFETY: a multiple of a page is at most a page away.
    let start = unsafe { had.add(had.align_offset(PAGE)) };
    // SAFETY: it is memory just had. The answer does not matter: a system without such pages takes others.
    unsafe { madvise(start.as_ptr(), bytes, LARGE_PAGES) };
    Ok(Room { had, bytes: more, places: start.cast(), count, kind: PhantomData })
}

impl<T: Lent> Default for Room<T> {
    fn default() -> Room<T> {
        Room { had: NonNull::dangling(), bytes: 0, places: NonNull::dangling(), count: 0, kind: PhantomData }
    }
}

impl<T: Lent> Room<T> {
    /// Only the first so many places from now on.
    pub fn truncate(&mut self, count: usize) {
        self.count = self.count.min(count);
    }
}

impl<T: Lent> Deref for Room<T> {
    type Target = [T];

    fn deref(&self) -> &[T] {
        // SAFETY: there are as many places, and zero bytes are a value.
        unsafe { slice::from_raw_parts(self.places.as_ptr(), self.count) }
    }
}

impl<T: Lent> DerefMut for Room<T> {
    fn deref_mut(&mut self) -> &mut [T] {
        // SAFETY: as above, and nobody else has them.
        unsafe { slice::from_raw_parts_mut(self.places.as_ptr(), self.count) }
    }
}

impl<T: Lent> Drop for Room<T> {
    fn drop(&mut self) {
        if self.bytes > 0 {
            // SAFETY: it was had from the system in one piece, and no slice of it is left.
            unsafe { munmap(self.had.as_ptr(), self.bytes) };
        }
    }
}
