//! A table that is not cleared when it is made, so that a short line does not pay for a long one.

use std::mem::MaybeUninit;

pub struct Unset<T: Copy, const LENGTH: usize>([MaybeUninit<T>; LENGTH]);

impl<T: Copy, const LENGTH: usize> Unset<T, LENGTH> {
    pub fn new() -> Self {
        Unset([const { MaybeUninit::uninit() }; LENGTH])
    }

    pub fn fill_first(&mut self, count: usize, value: T) {
        for place in &mut self.0[..count] {
            place.write(value);
        }
    }

    /// # Safety
    /// `at` is below `LENGTH`.
    #[inline(always)]
    pub unsafe fn set(&mut self, at: usize, value: T) {
        debug_assert!(at < LENGTH);
        unsafe { self.0.get_unchecked_mut(at) }.write(value);
    }

    /// # Safety
    /// `at` is below `LENGTH` and has been set.
    #[inline(always)]
    pub unsafe fn get(&self, at: usize) -> T {
        debug_assert!(at < LENGTH);
        unsafe { self.0.get_unchecked(at).assume_init_read() }
    }

    /// # Safety
    /// The first `count` places have been set.
    pub unsafe fn first(&self, count: usize) -> &[T] {
        let places = &raw const self.0[..count];
        // SAFETY: `MaybeUninit<T>` has the layout of `T`.
        unsafe { &*(places as *const [T]) }
    }
}
