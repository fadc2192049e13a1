//! Lines to standard output through a buffer.

use std::io::{self, Write};

const SIZE: usize = 1 << 16;
/// No line is longer.
const LINE: usize = 64;

pub struct Output {
    buffer: Vec<u8>,
}

const HEX: &[u8; 16] = b"0123456789ABCDEF";

impl Output {
    pub fn new() -> Self {
        Output { buffer: Vec::with_capacity(SIZE) }
    }

    pub fn flush(&mut self) {
        // A reader that has gone away needs no lines.
        let _ = io::stdout().write_all(&self.buffer);
        self.buffer.clear();
    }

    #[inline]
    fn end_line(&mut self) {
        self.buffer.push(b'\n');
        if self.buffer.len() > SIZE - LINE {
            self.flush();
        }
    }

    /// ' ' and the number in hex.
    #[inline]
    fn hex<const DIGITS: usize>(&mut self, number: u32) {
        let mut text = [b' '; DIGITS];
        for (place, digit) in text.iter_mut().rev().enumerate() {
            *digit = HEX[(number >> (4 * place) & 15) as usize];
        }
        self.buffer.push(b' ');
        self.buffer.extend_from_slice(&text);
    }

    /// ' ' and the number in decimal.
    #[inline]
    fn decimal(&mut self, number: u32) {
        self.buffer.push(b' ');
        if number >= 10 {
            self.digits(number / 10);
        }
        self.buffer.push(b'0' + (number % 10) as u8);
    }

    fn digits(&mut self, number: u32) {
        if number >= 10 {
            self.digits(number / 10);
        }
        self.buffer.push(b'0' + (number % 10) as u8);
    }

    pub fn line(&mut self, text: &[u8]) {
        self.buffer.extend_from_slice(text);
        self.end_line();
    }

    pub fn refusal(&mut self, number: u8) {
        self.buffer.push(b'R');
        self.decimal(number.into());
        self.end_line();
    }

    #[inline]
    pub fn address(&mut self, physical: u32, count: u32) {
        self.buffer.push(b'A');
        self.hex::<8>(physical);
        self.decimal(count);
        self.end_line();
    }

    pub fn fault(&mut self, kind: u8, cause: u8, address: u32, count: u32) {
        self.buffer.push(b'F');
        self.decimal(kind.into());
        self.decimal(cause.into());
        self.hex::<8>(address);
        self.decimal(count);
        self.end_line();
    }

    pub fn loaded(&mut self, count: u32) {
        self.buffer.push(b'L');
        self.decimal(count);
        self.end_line();
    }

    pub fn tested(&mut self, mmusr: u16, address: u32, count: u32) {
        self.buffer.push(b'T');
        self.hex::<4>(mmusr.into());
        self.hex::<8>(address);
        self.decimal(count);
        self.end_line();
    }
}
