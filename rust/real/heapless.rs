//! Stands in for the crate heapless, of which cobs 0.5.1 uses a vector in a type that nothing here calls.
#![no_std]
use core::ops::{Deref, DerefMut};

#[derive(Debug)]
pub struct Vec<T, const N: usize> {
    held: [T; N],
    len: usize,
}

impl<T: Copy + Default, const N: usize> Vec<T, N> {
    pub fn new() -> Self {
        Vec { held: [T::default(); N], len: 0 }
    }

    pub fn capacity(&self) -> usize {
        N
    }

    pub fn resize(&mut self, len: usize, value: T) -> Result<(), ()> {
        if N < len {
            return Err(());
        }
        for place in self.len..len {
            self.held[place] = value;
        }
        self.len = len;
        Ok(())
    }
}

impl<T: Copy + Default, const N: usize> Default for Vec<T, N> {
    fn default() -> Self {
        Self::new()
    }
}

impl<T, const N: usize> Deref for Vec<T, N> {
    type Target = [T];
    fn deref(&self) -> &[T] {
        &self.held[..self.len]
    }
}

impl<T, const N: usize> DerefMut for Vec<T, N> {
    fn deref_mut(&mut self) -> &mut [T] {
        &mut self.held[..self.len]
    }
}
