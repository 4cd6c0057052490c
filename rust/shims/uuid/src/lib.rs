//! A stand-in for uuid: what parquet-variant 60.0.0 names of it, and no more.

/// Sixteen bytes.
#[derive(Debug, Clone, Copy, PartialEq, Eq)]
pub struct Uuid([u8; 16]);

impl Uuid {
    pub const fn from_bytes(bytes: [u8; 16]) -> Self {
        Uuid(bytes)
    }

    pub const fn into_bytes(self) -> [u8; 16] {
        self.0
    }
}
