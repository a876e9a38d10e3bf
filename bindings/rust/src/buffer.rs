//! Buffers of a fixed length on the heap, and what a call on lawful buffers answers.

use std::ops::{Deref, DerefMut};

use crate::refusal::Refusal;

/// An array on the heap. It is never on the stack, where some would take too much.
pub struct Buffer<T, const N: usize>(Box<[T; N]>);

impl<T: Copy + Default, const N: usize> Buffer<T, N> {
    pub fn new() -> Self {
        let Ok(array) = vec![T::default(); N].into_boxed_slice().try_into() else { unreachable!("N elements are an array of N") };
        Buffer(array)
    }

    /// These at the start, as many as there is room for.
    pub fn holding(content: &[T]) -> Self {
        let mut buffer = Self::new();
        let room = content.len().min(N);
        buffer[..room].copy_from_slice(&content[..room]);
        buffer
    }
}

impl<const N: usize> Buffer<u64, N> {
    /// The rows of a state: as many as word 0 says.
    pub fn rows(&self) -> &[u64] {
        &self[1..=self[0] as usize]
    }
}

impl<T: Copy + Default, const N: usize> Clone for Buffer<T, N> {
    fn clone(&self) -> Self {
        Self::holding(&self.0[..])
    }
}

impl<T, const N: usize> Deref for Buffer<T, N> {
    type Target = [T; N];
    fn deref(&self) -> &[T; N] {
        &self.0
    }
}

impl<T, const N: usize> DerefMut for Buffer<T, N> {
    fn deref_mut(&mut self) -> &mut [T; N] {
        &mut self.0
    }
}

/// What a call answers that cannot be refused: its buffers were left by other calls, which leave lawful ones.
pub fn never_refused<T>(answer: Result<T, Refusal>) -> T {
    answer.unwrap_or_else(|refusal| panic!("a state that the library left was refused by it: {refusal}"))
}
