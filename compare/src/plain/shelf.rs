//! The two shelves: append-only stores of values in memory that the caller lends.

use super::values::Value;
use std::marker::PhantomData;

/// A shelf has at most this many places, however much memory is lent.
const MOST_PLACES: usize = 4096;

#[derive(Clone, Copy, Debug, PartialEq, Eq)]
pub enum ShelfFault {
    Full,
    NoSuchPlace,
}

impl ShelfFault {
    pub fn number(self) -> u8 {
        match self {
            ShelfFault::Full => 13,
            ShelfFault::NoSuchPlace => 21,
        }
    }
}

pub trait Shelf {
    type Item: Value;

    /// Adds a value at the end, and tells its place.
    fn add(&mut self, value: Self::Item) -> Result<u16, ShelfFault>;

    fn fetch(&self, place: u16) -> Result<Self::Item, ShelfFault>;
}

/// Keeps each value in a cell of the lent slice.
pub struct CellShelf<'a, V> {
    cells: &'a mut [V],
    len: usize,
}

impl<'a, V: Value> CellShelf<'a, V> {
    pub fn new(cells: &'a mut [V]) -> Self {
        let capacity = cells.len().min(MOST_PLACES);
        CellShelf {
            cells: &mut cells[..capacity],
            len: 0,
        }
    }
}

impl<V: Value> Shelf for CellShelf<'_, V> {
    type Item = V;

    fn add(&mut self, value: V) -> Result<u16, ShelfFault> {
        let cell = self.cells.get_mut(self.len).ok_or(ShelfFault::Full)?;
        *cell = value;
        self.len += 1;
        Ok((self.len - 1) as u16)
    }

    fn fetch(&self, place: u16) -> Result<V, ShelfFault> {
        let used = &self.cells[..self.len];
        used.get(usize::from(place))
            .copied()
            .ok_or(ShelfFault::NoSuchPlace)
    }
}

/// The bytes of a frame in front of the body: its length and its kind.
pub const FRAME_HEAD: usize = 6;

/// Keeps the frame of each value in the lent bytes.
pub struct ByteShelf<'a, V> {
    bytes: &'a mut [u8],
    capacity: usize,
    len: usize,
    kind: PhantomData<V>,
}

impl<'a, V: Value> ByteShelf<'a, V> {
    const FRAME: usize = FRAME_HEAD + V::WIDTH;

    pub fn new(bytes: &'a mut [u8]) -> Self {
        let capacity = (bytes.len() / Self::FRAME).min(MOST_PLACES);
        ByteShelf {
            bytes,
            capacity,
            len: 0,
            kind: PhantomData,
        }
    }
}

impl<V: Value> Shelf for ByteShelf<'_, V> {
    type Item = V;

    fn add(&mut self, value: V) -> Result<u16, ShelfFault> {
        if self.len == self.capacity {
            return Err(ShelfFault::Full);
        }
        let frame = &mut self.bytes[self.len * Self::FRAME..][..Self::FRAME];
        frame[..4].copy_from_slice(&(V::WIDTH as u32 + 2).to_le_bytes());
        frame[4..6].copy_from_slice(&V::KIND.to_le_bytes());
        value.encode(&mut frame[FRAME_HEAD..]);
        self.len += 1;
        Ok((self.len - 1) as u16)
    }

    fn fetch(&self, place: u16) -> Result<V, ShelfFault> {
        let place = usize::from(place);
        if place >= self.len {
            return Err(ShelfFault::NoSuchPlace);
        }
        let frame = &self.bytes[place * Self::FRAME..][..Self::FRAME];
        Ok(V::decode(&frame[FRAME_HEAD..]).expect("a used frame holds a value"))
    }
}
