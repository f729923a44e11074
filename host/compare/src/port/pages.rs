//! Slices that lie against an inaccessible page, at their end or at their beginning, so that a step outside is a fault.

use super::lent::Cell;
use std::cell::{Cell as Kept, RefCell};
use std::ffi::c_void;
use std::mem::{size_of, size_of_val};

extern "C" {
    fn mmap(
        at: *mut c_void,
        length: usize,
        access: i32,
        flags: i32,
        file: i32,
        offset: i64,
    ) -> *mut c_void;
    fn mprotect(at: *mut c_void, length: usize, access: i32) -> i32;
    fn fork() -> i32;
    fn waitpid(child: i32, status: *mut i32, options: i32) -> i32;
    fn signal(number: i32, handler: extern "C" fn(i32)) -> usize;
    fn _exit(code: i32) -> !;
}

const NO_ACCESS: i32 = 0;
const READ: i32 = 1;
const READ_AND_WRITE: i32 = 1 | 2;
const PRIVATE_WITHOUT_A_FILE: i32 = 0x02 | 0x20;
const WITHOUT_RESERVE: i32 = 0x4000;

const PAGE: usize = 4096;

/// 2^k accessible pages between two that are not.
#[derive(Clone, Copy)]
struct Pages {
    first: *mut u8,
    k: usize,
}

impl Pages {
    fn bytes(self) -> usize {
        PAGE << self.k
    }

    /// One of the least size that has room for these bytes.
    fn with_room_for(bytes: usize) -> Pages {
        let k = (0..KINDS)
            .find(|k| bytes <= PAGE << k)
            .expect("a size that there is");
        let used = FREE.with(|free| free.borrow_mut()[k].pop());
        used.unwrap_or_else(|| Pages::map(k))
    }

    fn map(k: usize) -> Pages {
        let inside = PAGE << k;
        // SAFETY: a new mapping at no address of our choice, of which the middle is opened.
        unsafe {
            let all = mmap(
                std::ptr::null_mut(),
                inside + 2 * PAGE,
                NO_ACCESS,
                PRIVATE_WITHOUT_A_FILE,
                -1,
                0,
            );
            assert!(all as isize != -1, "no memory to lend");
            let first = all.cast::<u8>().add(PAGE);
            let opened = mprotect(first.cast(), inside, READ_AND_WRITE);
            assert!(opened == 0, "no access to the memory to lend");
            Pages { first, k }
        }
    }
}

/// More than any machine has addresses for.
const KINDS: usize = 40;
const NONE: Vec<Pages> = Vec::new();

thread_local! {
    /// Mappings to be used again, by k.
    static FREE: RefCell<[Vec<Pages>; KINDS]> = const { RefCell::new([NONE; KINDS]) };
    /// What the side of the next slice is taken from.
    static SIDES: Kept<u64> = const { Kept::new(1) };
}

/// Begins the stream of sides anew.
pub fn sides_from(seed: u64) {
    SIDES.with(|sides| sides.set(seed));
}

/// Whether the next slice ends at the inaccessible page, or else begins there.
fn next_at_end() -> bool {
    SIDES.with(|sides| {
        let next = sides
            .get()
            .wrapping_mul(0x5851_f42d_4c95_7f2d)
            .wrapping_add(0x1405_7b7e_f767_814f);
        sides.set(next);
        next >> 63 == 0
    })
}

/// Cells on the other side that are not lent and must stay as they are.
const AROUND: usize = 3;

/// A copy of a slice against an inaccessible page.
pub struct Guarded<T: Cell> {
    pages: Pages,
    length: usize,
    at_end: bool,
    cells: *mut T,
}

impl<T: Cell> Guarded<T> {
    pub fn of(values: &[T]) -> Guarded<T> {
        let bytes = (values.len() + AROUND) * size_of::<T>();
        let pages = Pages::with_room_for(bytes);
        let at_end = next_at_end();
        let before = if at_end {
            pages.bytes() - size_of_val(values)
        } else {
            0
        };
        let mut guarded = Guarded {
            pages,
            length: values.len(),
            at_end,
            // SAFETY: the mapping has room for the slice and what is around it, and its cells are aligned: a slice has whole cells.
            cells: unsafe { pages.first.add(before).cast() },
        };
        guarded.lend().copy_from_slice(values);
        for (index, cell) in guarded.around_mut().iter_mut().enumerate() {
            *cell = T::other(index);
        }
        guarded
    }

    pub fn lent(&self) -> &[T] {
        // SAFETY: inside the mapping, which is this value's alone.
        unsafe { std::slice::from_raw_parts(self.cells, self.length) }
    }

    pub fn lend(&mut self) -> &mut [T] {
        // SAFETY: as above.
        unsafe { std::slice::from_raw_parts_mut(self.cells, self.length) }
    }

    fn around_mut(&mut self) -> &mut [T] {
        // SAFETY: as above; the slice lies at one end of the mapping, these cells on its other side.
        unsafe {
            let first = if self.at_end {
                self.cells.sub(AROUND)
            } else {
                self.cells.add(self.length)
            };
            std::slice::from_raw_parts_mut(first, AROUND)
        }
    }

    /// Ends the lending of what is only to be read.
    pub fn is_still(mut self, values: &[T]) {
        let same = self.lent().iter().zip(values).all(|(&a, &b)| a.same(b));
        assert!(same, "a slice that is only to be read was written");
        self.check_around();
    }

    /// Ends the lending of what may be written.
    pub fn back_to(mut self, values: &mut [T]) {
        values.copy_from_slice(self.lent());
        self.check_around();
    }

    fn check_around(&mut self) {
        let cells = self.around_mut().iter().enumerate();
        let mut same = cells.map(|(index, cell)| cell.same(T::other(index)));
        assert!(
            same.all(|same| same),
            "a cell beside a lent slice was written"
        );
    }
}

impl<T: Cell> Drop for Guarded<T> {
    fn drop(&mut self) {
        FREE.with(|free| free.borrow_mut()[self.pages.k].push(self.pages));
    }
}

/// So many zeros that take no memory: a mapping for reading alone. It stays for good.
pub fn endless<T: Cell>(cells: u64) -> &'static [T] {
    let bytes = cells as usize * size_of::<T>();
    if bytes == 0 {
        return &[];
    }
    // SAFETY: a new mapping at no address of our choice, whose pages are zeros, which every cell can be.
    unsafe {
        let first = mmap(
            std::ptr::null_mut(),
            bytes,
            READ,
            PRIVATE_WITHOUT_A_FILE | WITHOUT_RESERVE,
            -1,
            0,
        );
        assert!(first as isize != -1, "no addresses to lend");
        std::slice::from_raw_parts(first.cast(), cells as usize)
    }
}

/// Tries the guards: a child process that reads the cell after or before a slice must end by the fault.
pub fn check_guards() {
    for after in [true, false] {
        let side = if after { "after" } else { "before" };
        assert!(faults(after), "reading {side} a lent slice is no fault");
    }
}

const SEGMENTATION_FAULT: i32 = 11;
/// How the child ends when it was stopped.
const STOPPED: i32 = 77;

extern "C" fn stop(_signal: i32) {
    // SAFETY: ends the process at once.
    unsafe { _exit(STOPPED) }
}

fn faults(after: bool) -> bool {
    let guarded = (0..)
        .map(|_| Guarded::of(&[1u32, 2, 3]))
        .find(|guarded| guarded.at_end == after);
    let cells = guarded.expect("both sides come").cells;
    let outside = if after { 3 } else { -1 };
    // SAFETY: the child, of the only thread, reads outside the slice on purpose and ends in either case.
    unsafe {
        let child = fork();
        if child == 0 {
            signal(SEGMENTATION_FAULT, stop);
            cells.offset(outside).read_volatile();
            _exit(0);
        }
        let mut status = 0;
        waitpid(child, &mut status, 0) == child && status == STOPPED << 8
    }
}
