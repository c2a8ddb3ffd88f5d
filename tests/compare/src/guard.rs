//! What a call is lent, between two margins that no call may touch.

use crate::random::Random;

const MARGIN: usize = 32;

#[derive(Clone)]
pub struct Guarded<T> {
    store: Vec<T>,
    /// The store when it was lent last.
    before: Vec<T>,
    start: usize,
    length: usize,
}

impl<T: Copy + PartialEq + From<u8>> Guarded<T> {
    /// The margins hold garbage, and the lent part starts at an address of any alignment that its items allow.
    pub fn new(lent: &[T], noise: &mut Random) -> Self {
        let garbage: Vec<T> = noise.octets(2 * MARGIN + 8).into_iter().map(T::from).collect();
        let start = MARGIN + noise.index(8);
        let mut store = Vec::with_capacity(garbage.len() + lent.len());
        store.extend_from_slice(&garbage[..start]);
        store.extend_from_slice(lent);
        store.extend_from_slice(&garbage[start..]);
        Guarded { store, before: Vec::new(), start, length: lent.len() }
    }

    pub fn lent(&self) -> &[T] {
        &self.store[self.start..self.start + self.length]
    }

    /// The pointer and the length that a call gets. The pointer is one into the whole store, so that a stray write is seen.
    pub fn lend(&mut self) -> (*mut T, usize) {
        self.before.clone_from(&self.store);
        (self.store.as_mut_ptr().wrapping_add(self.start), self.length)
    }

    pub fn margins_stand(&self) -> bool {
        let end = self.start + self.length;
        self.store[..self.start] == self.before[..self.start] && self.store[end..] == self.before[end..]
    }

    pub fn untouched(&self) -> bool {
        self.store == self.before
    }
}
