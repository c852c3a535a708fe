//! The fields of a request line. Whatever is malformed is `None`.

use crate::scan_format::ScanDataFormat;

/// The most elements of text that are lent.
const MOST_TEXT: u64 = 64;

/// The most bytes of a preamble that are lent.
const MOST_PREAMBLE: u64 = 256;

/// The most bytes that are lent for a record to be written.
const MOST_BYTES: u64 = 1024;

/// The most elements of any other slice that are lent, and the most that a list of a request has.
const MOST_ELEMENTS: u64 = 64;

/// The fields that are still to be read.
pub struct Fields<'a> {
    rest: Option<&'a [u8]>,
}

impl<'a> Fields<'a> {
    pub fn new(line: &'a [u8]) -> Self {
        Self { rest: Some(line) }
    }

    /// The next field as it stands, up to a space or the line's end.
    pub fn field(&mut self) -> Option<&'a [u8]> {
        let rest = self.rest?;
        let (field, after) = match rest.iter().position(|&b| b == b' ') {
            Some(space) => (&rest[..space], Some(&rest[space + 1..])),
            None => (rest, None),
        };
        self.rest = after;
        Some(field)
    }

    /// That no field is left.
    pub fn end(&self) -> Option<()> {
        match self.rest {
            Some(_) => None,
            None => Some(()),
        }
    }

    /// A decimal number of at most 20 digits, not above `most`.
    pub fn number(&mut self, most: u64) -> Option<u64> {
        let digits = self.field()?;
        if digits.is_empty() || digits.len() > 20 {
            return None;
        }
        let mut number: u64 = 0;
        for &digit in digits {
            if !digit.is_ascii_digit() {
                return None;
            }
            number = number
                .checked_mul(10)?
                .checked_add(u64::from(digit - b'0'))?;
        }
        (number <= most).then_some(number)
    }

    pub fn u8(&mut self) -> Option<u8> {
        self.number(u64::from(u8::MAX)).map(|n| n as u8)
    }

    pub fn u16(&mut self) -> Option<u16> {
        self.number(u64::from(u16::MAX)).map(|n| n as u16)
    }

    pub fn u32(&mut self) -> Option<u32> {
        self.number(u64::from(u32::MAX)).map(|n| n as u32)
    }

    pub fn u64(&mut self) -> Option<u64> {
        self.number(u64::MAX)
    }

    /// Numbers that are not above these.
    pub fn numbers<const N: usize>(&mut self, most: [u64; N]) -> Option<[u64; N]> {
        let mut numbers = [0; N];
        for (number, most) in numbers.iter_mut().zip(most) {
            *number = self.number(most)?;
        }
        Some(numbers)
    }

    pub fn flag(&mut self) -> Option<bool> {
        self.number(1).map(|n| n == 1)
    }

    pub fn format(&mut self) -> Option<ScanDataFormat> {
        self.number(2).map(|n| match n {
            0 => ScanDataFormat::PacketHeader,
            1 => ScanDataFormat::FlatV63,
            _ => ScanDataFormat::FlatV66,
        })
    }

    /// How many bytes of text are lent.
    pub fn lent_text(&mut self) -> Option<usize> {
        self.number(MOST_TEXT).map(|n| n as usize)
    }

    /// How many bytes of a preamble are lent.
    pub fn lent_preamble(&mut self) -> Option<usize> {
        self.number(MOST_PREAMBLE).map(|n| n as usize)
    }

    /// How many bytes are lent for a record to be written.
    pub fn lent_bytes(&mut self) -> Option<usize> {
        self.number(MOST_BYTES).map(|n| n as usize)
    }

    /// How many elements of another slice are lent.
    pub fn lent_elements(&mut self) -> Option<usize> {
        self.number(MOST_ELEMENTS).map(|n| n as usize)
    }

    /// Bytes as pairs of lower-case hexadecimal digits, or `-` for none.
    pub fn bytes(&mut self) -> Option<Vec<u8>> {
        let digits = self.field()?;
        if digits == b"-" {
            return Some(Vec::new());
        }
        if digits.is_empty() || digits.len() % 2 != 0 {
            return None;
        }
        digits
            .chunks_exact(2)
            .map(|pair| Some(digit(pair[0])? << 4 | digit(pair[1])?))
            .collect()
    }

    /// Bytes of a preamble, not more than are lent of one.
    pub fn preamble(&mut self) -> Option<Vec<u8>> {
        self.bytes()
            .filter(|bytes| bytes.len() <= MOST_PREAMBLE as usize)
    }

    /// A list of numbers as their bytes.
    fn elements<const N: usize>(&mut self) -> Option<Vec<[u8; N]>> {
        let bytes = self.bytes()?;
        if bytes.len() % N != 0 || bytes.len() / N > MOST_ELEMENTS as usize {
            return None;
        }
        bytes
            .chunks_exact(N)
            .map(|element| element.try_into().ok())
            .collect()
    }

    pub fn f64s(&mut self) -> Option<Vec<f64>> {
        let elements = self.elements()?;
        Some(elements.into_iter().map(f64::from_le_bytes).collect())
    }

    pub fn u64s(&mut self) -> Option<Vec<u64>> {
        let elements = self.elements()?;
        Some(elements.into_iter().map(u64::from_le_bytes).collect())
    }

    pub fn u16s(&mut self) -> Option<Vec<u16>> {
        let elements = self.elements()?;
        Some(elements.into_iter().map(u16::from_le_bytes).collect())
    }
}

fn digit(b: u8) -> Option<u8> {
    match b {
        b'0'..=b'9' => Some(b - b'0'),
        b'a'..=b'f' => Some(b - b'a' + 10),
        _ => None,
    }
}
