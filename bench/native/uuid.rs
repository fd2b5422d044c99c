//! Identifiers of version 4, as the kit's crate of this name gives them.
#![allow(warnings)]

pub struct Builder([u8; 16]);
pub struct Uuid([u8; 16]);
pub struct Hyphenated([u8; 16]);

impl Builder {
    pub fn from_random_bytes(mut bytes: [u8; 16]) -> Builder {
        bytes[6] = bytes[6] & 0x0f | 0x40;
        bytes[8] = bytes[8] & 0x3f | 0x80;
        Builder(bytes)
    }
    pub fn into_uuid(self) -> Uuid {
        Uuid(self.0)
    }
}
impl Uuid {
    pub fn hyphenated(self) -> Hyphenated {
        Hyphenated(self.0)
    }
}
impl core::fmt::Display for Hyphenated {
    fn fmt(&self, f: &mut core::fmt::Formatter<'_>) -> core::fmt::Result {
        for (i, byte) in self.0.iter().enumerate() {
            if matches!(i, 4 | 6 | 8 | 10) {
                write!(f, "-")?;
            }
            write!(f, "{byte:02x}")?;
        }
        Ok(())
    }
}
