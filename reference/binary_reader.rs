// The reader that document 01 fixes. It is included at the end of reader.rs, where the other files look for it and
// where reader.rs's private functions can be reached.

#[derive(Debug)]
pub struct BinaryReader<R> {
    source: R,
    position: u64,
    end: u64,
}

impl<R: Read + Seek> BinaryReader<R> {
    /// Reads from where the source stands. A source that cannot be measured has no bytes.
    pub fn new(mut source: R) -> Self {
        let (position, end) = measure(&mut source).unwrap_or((0, 0));
        Self {
            source,
            position,
            end,
        }
    }

    pub fn position(&self) -> u64 {
        self.position
    }

    /// Refuses a count of items that the bytes left cannot hold.
    pub fn check_count(&self, count: u64, size: u64) -> Result<()> {
        self.check(count.saturating_mul(size))
    }

    pub fn skip(&mut self, count: usize) -> Result<()> {
        self.pass(count as u64)?;
        self.source.seek(SeekFrom::Start(self.position))?;
        Ok(())
    }

    pub fn read_bytes(&mut self, count: usize) -> Result<Vec<u8>> {
        self.pass(count as u64)?;
        let mut bytes = vec![0; count];
        self.source.read_exact(&mut bytes)?;
        Ok(bytes)
    }

    pub fn read_u8(&mut self) -> Result<u8> {
        self.read_array().map(u8::from_le_bytes)
    }

    pub fn read_u16(&mut self) -> Result<u16> {
        self.read_array().map(u16::from_le_bytes)
    }

    pub fn read_u32(&mut self) -> Result<u32> {
        self.read_array().map(u32::from_le_bytes)
    }

    pub fn read_u64(&mut self) -> Result<u64> {
        self.read_array().map(u64::from_le_bytes)
    }

    pub fn read_f32(&mut self) -> Result<f32> {
        self.read_array().map(f32::from_le_bytes)
    }

    pub fn read_f64(&mut self) -> Result<f64> {
        self.read_array().map(f64::from_le_bytes)
    }

    fn read_array<const N: usize>(&mut self) -> Result<[u8; N]> {
        self.pass(N as u64)?;
        let mut bytes = [0; N];
        self.source.read_exact(&mut bytes)?;
        Ok(bytes)
    }

    /// Refuses if fewer bytes are left than needed. A place beyond the end has none left.
    fn check(&self, needed: u64) -> Result<()> {
        if needed > self.end.saturating_sub(self.position) {
            return Err(Error::RanOut {
                offset: self.position,
                needed,
            });
        }
        Ok(())
    }

    /// Moves past bytes that are there. Called before each read, so that nothing is allocated for a refused one.
    fn pass(&mut self, count: u64) -> Result<()> {
        self.check(count)?;
        self.position = self.position.saturating_add(count);
        Ok(())
    }
}

/// The place where the source stands and the place of its end.
fn measure<R: Seek>(source: &mut R) -> std::io::Result<(u64, u64)> {
    let position = source.stream_position()?;
    let end = source.seek(SeekFrom::End(0))?;
    source.seek(SeekFrom::Start(position))?;
    Ok((position, end))
}
