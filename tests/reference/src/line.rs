//! The line that is being read, byte by byte.

/// "Lines hold at most 1,100 bytes, byte 10 not counted".
pub const LINE_BYTES: usize = 1100;

/// The bytes of a line so far. Of a line that is too long only the fact is
/// kept besides its beginning.
#[derive(Clone, Debug, Default)]
pub struct Line {
    pub bytes: Vec<u8>,
    pub too_long: bool,
}

impl Line {
    pub fn push(&mut self, byte: u8) {
        if self.bytes.len() < LINE_BYTES {
            self.bytes.push(byte);
        } else {
            self.too_long = true;
        }
    }
}
