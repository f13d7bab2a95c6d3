//! A list with a fixed bound. The house allocates nothing, so its lists live in its rows.

#[derive(Clone, Copy, Debug)]
pub struct List<T, const BOUND: usize> {
    items: [T; BOUND],
    len: u16,
}

impl<T: Copy, const BOUND: usize> List<T, BOUND> {
    /// An empty list. The filler stands in the unused places and is never seen.
    pub const fn new(filler: T) -> Self {
        List {
            items: [filler; BOUND],
            len: 0,
        }
    }

    pub fn is_full(&self) -> bool {
        usize::from(self.len) == BOUND
    }

    /// Adds an item at the end. The caller has tested that the list is not full.
    pub fn push(&mut self, item: T) {
        self.items[usize::from(self.len)] = item;
        self.len += 1;
    }

    pub fn as_slice(&self) -> &[T] {
        &self.items[..usize::from(self.len)]
    }

    pub fn as_mut_slice(&mut self) -> &mut [T] {
        &mut self.items[..usize::from(self.len)]
    }
}
