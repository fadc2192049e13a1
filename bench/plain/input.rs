//! Standard input through a buffer, record by record.

use std::io::{self, Read};

/// Far more than one record; a record of a known kind has at most 47 bytes.
const SIZE: usize = 1 << 16;
const LONGEST: usize = 47;

pub struct Input {
    buffer: Vec<u8>,
    start: usize,
    end: usize,
    stdin: io::StdinLock<'static>,
}

pub enum Next<'a> {
    Body(&'a [u8]),
    /// A length or body cut short, or a length that no record has.
    Short,
    End,
}

impl Input {
    pub fn new() -> Self {
        Input { buffer: vec![0; SIZE], start: 0, end: 0, stdin: io::stdin().lock() }
    }

    /// Whether so many bytes are in the buffer, after reading more if need be.
    #[inline]
    fn has(&mut self, bytes: usize) -> bool {
        self.end - self.start >= bytes || self.fill(bytes)
    }

    #[cold]
    fn fill(&mut self, bytes: usize) -> bool {
        self.buffer.copy_within(self.start..self.end, 0);
        self.end -= self.start;
        self.start = 0;
        while self.end < bytes {
            match self.stdin.read(&mut self.buffer[self.end..]) {
                Ok(0) | Err(_) => return false,
                Ok(read) => self.end += read,
            }
        }
        true
    }

    pub fn byte(&mut self) -> Option<u8> {
        self.has(1).then(|| {
            self.start += 1;
            self.buffer[self.start - 1]
        })
    }

    #[inline]
    pub fn record(&mut self) -> Next<'_> {
        if !self.has(2) {
            return if self.end == self.start { Next::End } else { Next::Short };
        }
        let length = usize::from(u16::from_be_bytes([self.buffer[self.start], self.buffer[self.start + 1]]));
        if length > LONGEST || !self.has(2 + length) {
            return Next::Short;
        }
        let body = self.start + 2;
        self.start = body + length;
        Next::Body(&self.buffer[body..self.start])
    }
}
