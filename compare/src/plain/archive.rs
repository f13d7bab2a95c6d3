//! The archive: the answered jobs as a row of frames.

use super::house::{Fault, House, Kind};
use super::shelf::{Shelf, FRAME_HEAD};
use super::values::Value;

const HEAD_KIND: u16 = 1;
const AMENDMENT_KIND: u16 = 2;
const INSPECTION_KIND: u16 = 3;
const HEAD_BODY: usize = 6;

/// Writes bytes one behind the other into a buffer that is long enough.
struct Cursor<'a> {
    buffer: &'a mut [u8],
    at: usize,
}

impl Cursor<'_> {
    fn put(&mut self, bytes: &[u8]) {
        self.buffer[self.at..][..bytes.len()].copy_from_slice(bytes);
        self.at += bytes.len();
    }

    fn put_value<V: Value>(&mut self, value: V) {
        value.encode(&mut self.buffer[self.at..][..V::WIDTH]);
        self.at += V::WIDTH;
    }

    fn put_frame_head(&mut self, kind: u16, body: usize) {
        self.put(&(body as u32 + 2).to_le_bytes());
        self.put(&kind.to_le_bytes());
    }
}

/// The bytes of the body of a leaf: the job, two counts, and the listed records.
fn leaf_body<V: Value>(reads: usize, writes: usize) -> usize {
    4 + 2 * reads + (2 + V::WIDTH) * writes
}

impl<S: Shelf> House<S> {
    /// Writes the archive to the front of the buffer, and tells its size.
    pub fn archive(&self, buffer: &mut [u8]) -> Result<usize, Fault> {
        let needed = self.archive_size();
        if needed > buffer.len() {
            return Err(Fault::ShortBuffer { needed });
        }
        let mut cursor = Cursor { buffer, at: 0 };
        self.put_head(&mut cursor);
        self.put_leaves(&mut cursor)?;
        Ok(cursor.at)
    }

    fn archive_size(&self) -> usize {
        let leaf = |reads: usize, writes: usize| FRAME_HEAD + leaf_body::<S::Item>(reads, writes);
        let leaves = self.leaves();
        let sizes = leaves.map(|(_, _, reads, writes)| leaf(reads.len(), writes.len()));
        FRAME_HEAD + HEAD_BODY + sizes.sum::<usize>()
    }

    fn put_head(&self, cursor: &mut Cursor<'_>) {
        cursor.put_frame_head(HEAD_KIND, HEAD_BODY);
        cursor.put(&(self.answered_count() as u16).to_le_bytes());
        cursor.put(&S::Item::KIND.to_le_bytes());
        cursor.put(&(S::Item::WIDTH as u16).to_le_bytes());
    }

    fn put_leaves(&self, cursor: &mut Cursor<'_>) -> Result<(), Fault> {
        for (number, kind, reads, writes) in self.leaves() {
            let frame_kind = match kind {
                Kind::Amendment => AMENDMENT_KIND,
                Kind::Inspection => INSPECTION_KIND,
            };
            cursor.put_frame_head(frame_kind, leaf_body::<S::Item>(reads.len(), writes.len()));
            cursor.put(&(number as u16).to_le_bytes());
            cursor.put(&[reads.len() as u8]);
            for read in reads {
                cursor.put(&[read.record, read.version]);
            }
            cursor.put(&[writes.len() as u8]);
            for write in writes {
                cursor.put(&[write.record, write.version]);
                cursor.put_value(self.shelf.fetch(write.place)?);
            }
        }
        Ok(())
    }
}
