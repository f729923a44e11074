//! A `Vec` with a budget, under the name that spline.rs knows: what no machine could store is an outcome of the call.

use crate::error::Result as OriginalResult;
use std::cell::Cell;
use std::ops::{Deref, DerefMut};
use std::sync::atomic::{AtomicU64, Ordering};

/// What one call of the original may store, in bytes, unless [`set_memory`] says otherwise.
pub const DEFAULT_MEMORY: u64 = 1 << 28;

static MEMORY: AtomicU64 = AtomicU64::new(DEFAULT_MEMORY);

thread_local! {
    /// What the running call may still store.
    static LEFT: Cell<u64> = const { Cell::new(0) };
}

/// Sets how many bytes one call of the original may store, in all threads. Every push counts, freed memory too.
pub fn set_memory(bytes: u64) {
    MEMORY.store(bytes, Ordering::Relaxed);
}

pub(crate) fn allowed() -> u64 {
    MEMORY.load(Ordering::Relaxed)
}

/// A call begins, with so many bytes to store in.
pub(crate) fn refill(bytes: u64) {
    LEFT.with(|left| left.set(bytes));
}

/// The error of a reservation, and what a push without room unwinds with.
#[derive(Debug)]
pub struct OutOfMemory;

/// Ends the running call.
pub(crate) fn stop() -> ! {
    std::panic::resume_unwind(Box::new(OutOfMemory))
}

/// The bytes of `count` values, saturated.
pub(crate) fn bytes_of<T>(count: usize) -> u64 {
    (count as u64).saturating_mul(std::mem::size_of::<T>() as u64)
}

/// Pays for `count` values or ends the call.
fn pay<T>(count: usize) {
    if cfg!(feature = "uncounted") {
        return;
    }
    LEFT.with(|left| match left.get().checked_sub(bytes_of::<T>(count)) {
        Some(rest) => left.set(rest),
        None => stop(),
    })
}

/// Whether `count` more values could be paid for.
fn can_pay<T>(count: usize) -> Result<(), OutOfMemory> {
    if bytes_of::<T>(count) <= LEFT.with(Cell::get) {
        Ok(())
    } else {
        Err(OutOfMemory)
    }
}

/// The standard `Vec`, each growth paid for.
#[derive(Clone, Debug)]
pub struct Vec<T>(std::vec::Vec<T>);

impl<T> Default for Vec<T> {
    fn default() -> Self {
        Vec::new()
    }
}

impl<T> Vec<T> {
    pub fn new() -> Self {
        Vec(std::vec::Vec::new())
    }

    /// Takes over what a caller has already stored.
    pub fn from_plain(values: std::vec::Vec<T>) -> Self {
        Vec(values)
    }

    pub fn push(&mut self, value: T) {
        pay::<T>(1);
        self.0.push(value);
    }

    pub fn clear(&mut self) {
        self.0.clear();
    }

    pub fn try_reserve(&mut self, additional: usize) -> Result<(), OutOfMemory> {
        can_pay::<T>(additional)
    }

    pub fn resize(&mut self, length: usize, value: T)
    where
        T: Clone,
    {
        pay::<T>(length.saturating_sub(self.0.len()));
        self.0.resize(length, value);
    }
}

impl<T> Deref for Vec<T> {
    type Target = [T];
    fn deref(&self) -> &[T] {
        &self.0
    }
}

impl<T> DerefMut for Vec<T> {
    fn deref_mut(&mut self) -> &mut [T] {
        &mut self.0
    }
}

impl<T> FromIterator<T> for Vec<T> {
    fn from_iter<I: IntoIterator<Item = T>>(values: I) -> Self {
        let mut result = Vec::new();
        for value in values {
            result.push(value);
        }
        result
    }
}

impl<T> IntoIterator for Vec<T> {
    type Item = T;
    type IntoIter = std::vec::IntoIter<T>;
    fn into_iter(self) -> Self::IntoIter {
        self.0.into_iter()
    }
}

impl<'a, T> IntoIterator for &'a Vec<T> {
    type Item = &'a T;
    type IntoIter = std::slice::Iter<'a, T>;
    fn into_iter(self) -> Self::IntoIter {
        self.0.iter()
    }
}

/// `vec!` for the `Vec` above.
macro_rules! vec {
    ($($value:expr),* $(,)?) => {
        [$($value),*].into_iter().collect::<$crate::stubs::memory::Vec<_>>()
    };
}
pub(crate) use vec;

pub trait NewWithCapacity: Sized {
    fn new_with_capacity(capacity: usize) -> Result<Self, OutOfMemory>;
}

impl<T> NewWithCapacity for Vec<T> {
    fn new_with_capacity(capacity: usize) -> Result<Self, OutOfMemory> {
        can_pay::<T>(capacity).map(|()| Vec::new())
    }
}

/// Tracks nothing.
pub struct MemoryTracker;

impl MemoryTracker {
    pub fn check_alloc(&self, _bytes: u64) -> OriginalResult<()> {
        Ok(())
    }
}
