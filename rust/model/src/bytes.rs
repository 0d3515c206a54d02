//! Frames, fields, and short runs of bytes kept in place.

use crate::Refusal;

/// The body of a frame: a 16-bit length and as many bytes, at least one.
pub(crate) fn body(frame: &[u8]) -> Result<&[u8], Refusal> {
    match frame {
        [high, low, body @ ..]
            if !body.is_empty() && body.len() == usize::from(u16::from_be_bytes([*high, *low])) =>
        {
            Ok(body)
        }
        _ => Err(Refusal::NotAFrame),
    }
}

/// Reads big-endian fields from the front. A field that is not all there is a bad length.
pub(crate) struct Reader<'a>(pub &'a [u8]);

impl<'a> Reader<'a> {
    pub fn run(&mut self, length: usize) -> Result<&'a [u8], Refusal> {
        let (run, rest) = self.0.split_at_checked(length).ok_or(Refusal::BadLength)?;
        self.0 = rest;
        Ok(run)
    }

    pub fn array<const N: usize>(&mut self) -> Result<[u8; N], Refusal> {
        let (array, rest) = self.0.split_first_chunk().ok_or(Refusal::BadLength)?;
        self.0 = rest;
        Ok(*array)
    }

    pub fn u8(&mut self) -> Result<u8, Refusal> {
        Ok(u8::from_be_bytes(self.array()?))
    }

    pub fn u16(&mut self) -> Result<u16, Refusal> {
        Ok(u16::from_be_bytes(self.array()?))
    }

    pub fn u32(&mut self) -> Result<u32, Refusal> {
        Ok(u32::from_be_bytes(self.array()?))
    }

    pub fn u64(&mut self) -> Result<u64, Refusal> {
        Ok(u64::from_be_bytes(self.array()?))
    }

    /// A run with its 16-bit length before it.
    pub fn counted(&mut self) -> Result<&'a [u8], Refusal> {
        let length = self.u16()?;
        self.run(usize::from(length))
    }

    /// Nothing may be left.
    pub fn end(&self) -> Result<(), Refusal> {
        if self.0.is_empty() {
            Ok(())
        } else {
            Err(Refusal::BadLength)
        }
    }
}

/// Writes to an output from its first byte on. The caller has seen that there is room.
pub(crate) struct Writer<'a> {
    out: &'a mut [u8],
    written: usize,
}

impl<'a> Writer<'a> {
    pub fn new(out: &'a mut [u8]) -> Writer<'a> {
        Writer { out, written: 0 }
    }

    pub fn put(&mut self, bytes: &[u8]) -> &mut Self {
        self.out[self.written..][..bytes.len()].copy_from_slice(bytes);
        self.written += bytes.len();
        self
    }

    pub fn written(&self) -> usize {
        self.written
    }
}

/// At most `N` bytes, and `N` at most 255, without an allocation.
#[derive(Clone, Copy)]
pub struct Short<const N: usize> {
    length: u8,
    bytes: [u8; N],
}

impl<const N: usize> Short<N> {
    /// A copy of `bytes`, which must not be longer than `N`.
    pub fn new(bytes: &[u8]) -> Self {
        let mut short = Self::default();
        short.bytes[..bytes.len()].copy_from_slice(bytes);
        short.length = u8::try_from(bytes.len()).expect("at most 255 bytes");
        short
    }
}

impl<const N: usize> Default for Short<N> {
    fn default() -> Self {
        Short {
            length: 0,
            bytes: [0; N],
        }
    }
}

impl<const N: usize> std::ops::Deref for Short<N> {
    type Target = [u8];

    fn deref(&self) -> &[u8] {
        &self.bytes[..usize::from(self.length)]
    }
}

impl<const N: usize> std::fmt::Debug for Short<N> {
    fn fmt(&self, f: &mut std::fmt::Formatter<'_>) -> std::fmt::Result {
        write!(f, "\"{}\"", self.escape_ascii())
    }
}
