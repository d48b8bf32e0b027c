//! Lends a buffer to the library: a copy of its content that stands directly before or directly
//! after inaccessible memory, so that an access outside it is a crash, or on the heap at its exact
//! size, where valgrind watches it.

use std::alloc::{alloc, dealloc, Layout};
use std::mem::size_of;
use std::ptr::{self, NonNull};
use std::slice;

/// Where the buffers of a call stand.
#[derive(Clone, Copy, Debug, PartialEq, Eq)]
pub enum Manner {
    /// Inaccessible memory follows each.
    BeforeAWall,
    /// Inaccessible memory precedes each.
    AfterAWall,
    /// Each is an allocation of its exact size.
    Heap,
}

/// A multiple of every page size in use.
const GRANULE: usize = 65_536;

/// The bytes beside a buffer, on the side without a wall, that are looked at afterwards.
const RIM: usize = 64;

/// What the rim holds.
const RIM_BYTE: u8 = 0xa5;

const PROT_NONE: i32 = 0;
const PROT_READ_WRITE: i32 = 1 | 2;
const MAP_PRIVATE_ANONYMOUS: i32 = 0x02 | 0x20;

extern "C" {
    fn mmap(at: *mut u8, len: usize, prot: i32, flags: i32, fd: i32, offset: i64) -> *mut u8;
    fn mprotect(at: *mut u8, len: usize, prot: i32) -> i32;
    fn munmap(at: *mut u8, len: usize) -> i32;
}

/// Accessible memory with a granule of inaccessible memory before and after it.
struct Region {
    start: *mut u8,
    len: usize,
}

impl Region {
    /// A region of at least so many bytes.
    fn new(bytes: usize) -> Region {
        let len = bytes.next_multiple_of(GRANULE);
        unsafe {
            let whole = len + 2 * GRANULE;
            let wall = mmap(ptr::null_mut(), whole, PROT_NONE, MAP_PRIVATE_ANONYMOUS, -1, 0);
            assert!(wall as isize != -1, "no memory");
            let start = wall.add(GRANULE);
            assert_eq!(mprotect(start, len, PROT_READ_WRITE), 0, "no memory");
            Region { start, len }
        }
    }
}

impl Drop for Region {
    /// Gives the memory and both walls back.
    fn drop(&mut self) {
        unsafe {
            munmap(self.start.sub(GRANULE), self.len + 2 * GRANULE);
        }
    }
}

/// Has a region for each buffer of a call, and uses them again for the next call.
pub struct Lender {
    regions: Vec<Region>,
    lent: usize,
}

impl Lender {
    /// Nothing is lent yet.
    pub fn new() -> Lender {
        Lender { regions: Vec::new(), lent: 0 }
    }

    /// The buffers of the call before are given back.
    pub fn begin(&mut self) {
        self.lent = 0;
    }

    /// Lends a copy of a buffer's content. One of length 0 is NULL where the others follow a wall.
    pub fn lend<T: Copy>(&mut self, manner: Manner, content: &[T]) -> Loan<T> {
        let loan = match manner {
            Manner::Heap => on_heap(content.len()),
            _ => self.beside_wall(manner, content.len()),
        };
        unsafe { ptr::copy_nonoverlapping(content.as_ptr(), loan.start, content.len()) };
        match manner == Manner::AfterAWall && content.is_empty() {
            true => Loan { start: ptr::null_mut(), ..loan },
            false => loan,
        }
    }

    /// A buffer at one end of the next region, with its rim.
    fn beside_wall<T>(&mut self, manner: Manner, len: usize) -> Loan<T> {
        let bytes = len * size_of::<T>();
        let region = self.region(bytes + RIM);
        let (start, rim) = unsafe {
            match manner {
                Manner::AfterAWall => (region.start, region.start.add(bytes)),
                _ => {
                    let start = region.start.add(region.len - bytes);
                    (start, start.sub(RIM))
                }
            }
        };
        unsafe { ptr::write_bytes(rim, RIM_BYTE, RIM) };
        Loan { start: start as *mut T, len, rim, allocated: None }
    }

    /// The next region, of at least so many bytes.
    fn region(&mut self, bytes: usize) -> &Region {
        let at = self.lent;
        self.lent += 1;
        if at == self.regions.len() {
            self.regions.push(Region::new(bytes));
        } else if self.regions[at].len < bytes {
            self.regions[at] = Region::new(bytes);
        }
        &self.regions[at]
    }
}

/// A heap buffer of its exact size; at length 0 there is nothing to point to.
fn on_heap<T>(len: usize) -> Loan<T> {
    if len == 0 {
        let start = NonNull::dangling().as_ptr();
        return Loan { start, len, rim: ptr::null_mut(), allocated: None };
    }
    let layout = Layout::array::<T>(len).expect("not too long");
    let start = unsafe { alloc(layout) };
    assert!(!start.is_null(), "no memory");
    Loan { start: start as *mut T, len, rim: ptr::null_mut(), allocated: Some((start, layout)) }
}

/// A buffer as lent.
pub struct Loan<T> {
    pub start: *mut T,
    pub len: usize,
    rim: *mut u8,
    allocated: Option<(*mut u8, Layout)>,
}

impl<T> Loan<T> {
    /// Its bytes as they are now.
    pub fn bytes(&self) -> &[u8] {
        match self.len {
            0 => &[],
            len => unsafe { slice::from_raw_parts(self.start as *const u8, len * size_of::<T>()) },
        }
    }

    /// Whether the rim is as it was.
    pub fn rim_is_whole(&self) -> bool {
        let rim: &[u8] = match self.rim.is_null() {
            true => &[],
            false => unsafe { slice::from_raw_parts(self.rim, RIM) },
        };
        rim.iter().all(|&byte| byte == RIM_BYTE)
    }
}

impl<T> Drop for Loan<T> {
    /// Frees a heap buffer.
    fn drop(&mut self) {
        if let Some((start, layout)) = self.allocated {
            unsafe { dealloc(start, layout) };
        }
    }
}

/// The bytes of a list of numbers.
pub fn bytes_of<T: Copy>(list: &[T]) -> &[u8] {
    unsafe { slice::from_raw_parts(list.as_ptr() as *const u8, size_of_val(list)) }
}
