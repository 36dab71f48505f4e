//! The records of a file, taken one after the other.

use crate::refusal::{self, Refusal};

/// A refused read: its number, and the offset in the file.
#[derive(Clone, Copy, Debug, PartialEq, Eq)]
pub struct RefusedRead {
    pub number: Refusal,
    pub offset: u64,
}

pub fn refused(number: Refusal, offset: usize) -> RefusedRead {
    RefusedRead { number, offset: offset as u64 }
}

pub struct Records<'f> {
    bytes: &'f [u8],
    at: usize,
}

impl Records<'_> {
    pub fn new(bytes: &[u8]) -> Records<'_> {
        Records { bytes, at: 0 }
    }

    /// The offset of what comes next.
    pub fn at(&self) -> usize {
        self.at
    }

    #[inline]
    pub fn mark(&mut self) -> Result<[u8; 2], Refusal> {
        self.body()
    }

    #[inline]
    pub fn body<const LENGTH: usize>(&mut self) -> Result<[u8; LENGTH], Refusal> {
        let body = self.bytes[self.at..].first_chunk().ok_or(refusal::BYTES_END)?;
        self.at += LENGTH;
        Ok(*body)
    }

    /// The body of `EN`, which states the count.
    #[inline]
    pub fn end(&mut self, count: usize) -> Result<(), Refusal> {
        if usize::from(u16::from_le_bytes(self.body()?)) == count {
            Ok(())
        } else {
            Err(refusal::END_COUNT)
        }
    }

    /// No byte follows.
    pub fn finish(&self) -> Result<(), RefusedRead> {
        if self.at == self.bytes.len() {
            Ok(())
        } else {
            Err(refused(refusal::BYTES_AFTER_END, self.at))
        }
    }
}
