//! Memory beside pages without access: whatever touches them ends the program, however it was compiled.
//! It asks Linux for them.

use std::cell::RefCell;
use std::ffi::{c_int, c_void};
use std::ops::{Deref, DerefMut};
use std::ptr;
use std::slice;

extern "C" {
    fn mmap(
        address: *mut c_void,
        length: usize,
        access: c_int,
        flags: c_int,
        file: c_int,
        offset: i64,
    ) -> *mut c_void;
    fn mprotect(address: *mut c_void, length: usize, access: c_int) -> c_int;
    fn munmap(address: *mut c_void, length: usize) -> c_int;
}

const NO_ACCESS: c_int = 0;
const READ_ALONE: c_int = 1;
const READ_AND_WRITE: c_int = 1 | 2;
const PRIVATE_AND_OF_NO_FILE: c_int = 2 | 0x20;
const NO_FILE: c_int = -1;

/// How far the pages without access reach on either side: a multiple of any page's size.
const GUARD: usize = 1 << 16;

/// Where the pages without access lie next to a block.
#[derive(Clone, Copy, Debug, PartialEq, Eq)]
pub enum Side {
    /// The block ends where they begin.
    Behind,
    /// The block begins where they end.
    Before,
}

impl Side {
    /// Either one half of the time, by a number that was drawn for something else.
    pub fn by(drawn: i32) -> Side {
        match drawn % 2 {
            0 => Side::Behind,
            _ => Side::Before,
        }
    }
}

/// Pages with access, between pages without.
#[derive(Clone, Copy)]
struct Pages {
    start: *mut c_void,
    length: usize,
}

thread_local! {
    /// Asking the system takes longer than most calls do, so pages are kept for the next block.
    static FREE: RefCell<Vec<Pages>> = const { RefCell::new(Vec::new()) };
}

impl Pages {
    fn taken(length: usize) -> Pages {
        let kept = FREE.with_borrow_mut(|free| {
            let place = free.iter().position(|pages| pages.length == length)?;
            Some(free.swap_remove(place))
        });
        kept.unwrap_or_else(|| Pages::asked_for(length))
    }

    fn asked_for(length: usize) -> Pages {
        let all = GUARD + length + GUARD;
        // New pages, which nothing else uses: those in the middle are opened.
        unsafe {
            let pages = mmap(ptr::null_mut(), all, NO_ACCESS, PRIVATE_AND_OF_NO_FILE, NO_FILE, 0);
            assert!(pages as isize != -1, "no pages");
            let start = pages.byte_add(GUARD);
            assert!(length == 0 || mprotect(start, length, READ_AND_WRITE) == 0, "no access");
            Pages { start, length }
        }
    }
}

/// Numbers at the end or at the start of such pages.
pub struct Beside<T> {
    pages: Pages,
    first: *mut T,
    count: usize,
}

impl<T: Copy> Beside<T> {
    pub fn holding(contents: &[T], side: Side) -> Beside<T> {
        let (size, count) = (size_of_val(contents), contents.len());
        let pages = Pages::taken(size.next_multiple_of(GUARD));
        let skipped = match side {
            Side::Behind => pages.length - size,
            Side::Before => 0,
        };
        // There is room for them, and nothing else uses the pages until they are free again.
        unsafe {
            let first = pages.start.byte_add(skipped).cast::<T>();
            ptr::copy_nonoverlapping(contents.as_ptr(), first, count);
            Beside { pages, first, count }
        }
    }
}

impl<T> Deref for Beside<T> {
    type Target = [T];

    fn deref(&self) -> &[T] {
        // So many were put there, and the pages are this block's own.
        unsafe { slice::from_raw_parts(self.first, self.count) }
    }
}

impl<T> DerefMut for Beside<T> {
    fn deref_mut(&mut self) -> &mut [T] {
        // So many were put there, and the pages are this block's own.
        unsafe { slice::from_raw_parts_mut(self.first, self.count) }
    }
}

impl<T> Drop for Beside<T> {
    fn drop(&mut self) {
        FREE.with_borrow_mut(|free| free.push(self.pages));
    }
}

/// More bytes than 32 bits can count: a few, and zeros after them that can be read and not written. They take
/// no memory before they are read.
pub struct Vast {
    first: *mut u8,
    length: usize,
    few: usize,
}

impl Vast {
    /// Nothing where the system has no room for them.
    pub fn holding(few: &[u8], length: usize) -> Option<Vast> {
        let written = few.len().next_multiple_of(GUARD);
        assert!(written <= length, "few among many");
        // New pages, which nothing else uses: the first of them are opened and written.
        unsafe {
            let pages = mmap(ptr::null_mut(), length, READ_ALONE, PRIVATE_AND_OF_NO_FILE, NO_FILE, 0);
            if pages as isize == -1 {
                return None;
            }
            assert!(mprotect(pages, written, READ_AND_WRITE) == 0, "no access");
            let first = pages.cast::<u8>();
            ptr::copy_nonoverlapping(few.as_ptr(), first, few.len());
            Some(Vast { first, length, few: few.len() })
        }
    }

    /// To be read, and written no farther than a call may write.
    pub fn bytes(&mut self) -> &mut [u8] {
        // So many are mapped, and the pages are its own.
        unsafe { slice::from_raw_parts_mut(self.first, self.length) }
    }

    /// Those that were put there.
    pub fn few(&mut self) -> &[u8] {
        let few = self.few;
        &self.bytes()[..few]
    }
}

impl Drop for Vast {
    fn drop(&mut self) {
        // Nothing uses them any more.
        unsafe { munmap(self.first.cast(), self.length) };
    }
}
