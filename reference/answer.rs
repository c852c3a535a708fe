//! The text of an answer, as docs/REQUESTS.md describes it.

use crate::error::Error;
use std::fmt::Display;
use std::io::Write;

/// What document 01 calls the parts; refusal 1 carries the one that ran out.
#[derive(Clone, Copy)]
pub enum Part {
    Header = 1,
    Index = 2,
    Event = 3,
    Data = 4,
}

/// A slice of bytes as it is lent.
pub fn lent8(length: usize) -> Vec<u8> {
    (0..length).map(|i| 0xa5u8.wrapping_add(i as u8)).collect()
}

/// A slice of 16-bit elements as it is lent.
pub fn lent16(length: usize) -> Vec<u16> {
    (0..length as u16).map(|i| 0xa5a0 + i).collect()
}

/// A slice of 32-bit elements as it is lent.
pub fn lent32(length: usize) -> Vec<u32> {
    (0..length as u32).map(|i| 0xa5a5_0000 + i).collect()
}

/// A slice of 64-bit elements as it is lent.
pub fn lent64(length: usize) -> Vec<u64> {
    (0..length as u64)
        .map(|i| 0xa5a5_a5a5_0000_0000 + i)
        .collect()
}

/// The bits of a float that arithmetic, narrowing or widening made: every NaN counts as one value. Floats of the pairs that a
/// scan hands out go through here too, also one that was only read (an f64 mass of a packet, a frequency without coefficients):
/// document 01 names `f64` for them, and the decoder's `f64` has one NaN.
pub fn made_bits32(value: f32) -> u32 {
    if value.is_nan() {
        0x7fc0_0000
    } else {
        value.to_bits()
    }
}

pub fn made_bits64(value: f64) -> u64 {
    if value.is_nan() {
        0x7ff8_0000_0000_0000
    } else {
        value.to_bits()
    }
}

/// The answers that were not written yet.
pub struct Answers {
    text: Vec<u8>,
}

impl Answers {
    pub fn new() -> Self {
        Self { text: Vec::new() }
    }

    pub fn text(&self) -> &[u8] {
        &self.text
    }

    pub fn clear(&mut self) {
        self.text.clear();
    }

    pub fn put(&mut self, text: &str) -> &mut Self {
        self.text.extend_from_slice(text.as_bytes());
        self
    }

    pub fn ok(&mut self) -> &mut Self {
        self.put("ok")
    }

    pub fn none(&mut self) -> &mut Self {
        self.put("none")
    }

    pub fn number<N: Display>(&mut self, number: N) -> &mut Self {
        // Writing to a vector does not fail.
        let _ = write!(self.text, " {number}");
        self
    }

    pub fn flag(&mut self, flag: bool) -> &mut Self {
        self.number(u8::from(flag))
    }

    pub fn bits32(&mut self, bits: u32) -> &mut Self {
        let _ = write!(self.text, " {bits:08x}");
        self
    }

    pub fn bits64(&mut self, bits: u64) -> &mut Self {
        let _ = write!(self.text, " {bits:016x}");
        self
    }

    pub fn made32(&mut self, value: f32) -> &mut Self {
        self.bits32(made_bits32(value))
    }

    pub fn made64(&mut self, value: f64) -> &mut Self {
        self.bits64(made_bits64(value))
    }

    /// A field of bytes, as in a request.
    pub fn bytes(&mut self, bytes: &[u8]) -> &mut Self {
        self.put(if bytes.is_empty() { " -" } else { " " });
        for byte in bytes {
            let _ = write!(self.text, "{byte:02x}");
        }
        self
    }

    pub fn number_or_none<N: Display>(&mut self, number: Option<N>) -> &mut Self {
        match number {
            Some(number) => self.ok().number(number),
            None => self.none(),
        }
    }

    /// A field for a code that may be none.
    pub fn number_or_dash<N: Display>(&mut self, number: Option<N>) -> &mut Self {
        match number {
            Some(number) => self.number(number),
            None => self.put(" -"),
        }
    }

    /// A refusal by its number and what it carries.
    pub fn refused(&mut self, error: &Error, part: Part) -> &mut Self {
        self.put("refused").number(error.number());
        match error {
            Error::RanOut { .. } => self.number(part as u32),
            Error::InvalidPrecursorMz { offset, mz } => self.number(offset).bits64(mz.to_bits()),
            _ => self,
        }
    }

    /// Refusal 8, which the original does not know: a lent slice is shorter than its count.
    pub fn too_short(&mut self) -> &mut Self {
        self.put("refused 8")
    }

    /// A lent slice of bytes after the call.
    pub fn slice8(&mut self, slice: &[u8]) -> &mut Self {
        self.put(" |");
        for element in slice {
            let _ = write!(self.text, " {element:02x}");
        }
        self
    }

    /// A lent slice of 16-bit elements after the call.
    pub fn slice16(&mut self, slice: &[u16]) -> &mut Self {
        self.put(" |");
        for element in slice {
            let _ = write!(self.text, " {element:04x}");
        }
        self
    }

    /// A lent slice of 32-bit elements after the call.
    pub fn slice32(&mut self, slice: &[u32]) -> &mut Self {
        self.put(" |");
        for element in slice {
            self.bits32(*element);
        }
        self
    }

    /// A lent slice of 64-bit elements after the call.
    pub fn slice64(&mut self, slice: &[u64]) -> &mut Self {
        self.put(" |");
        for element in slice {
            self.bits64(*element);
        }
        self
    }

    /// A name written into a lent slice of bytes, or refusal 8 if the slice is too short for it.
    pub fn name(&mut self, name: Option<&str>, lent: usize) -> &mut Self {
        let mut slice = lent8(lent);
        match name {
            None => self.none(),
            Some(name) => match slice.get_mut(..name.len()) {
                None => self.too_short(),
                Some(start) => {
                    start.copy_from_slice(name.as_bytes());
                    self.ok().number(name.len())
                }
            },
        };
        self.slice8(&slice)
    }
}
