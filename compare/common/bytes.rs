//! The numbers of every layout: without sign, little-endian, 16 or 32 bits.

/// The number of 16 bits at a place.
#[inline]
pub fn short(bytes: &[u8], place: usize) -> u16 {
    u16::from_le_bytes(bytes[place..place + 2].try_into().expect("two bytes"))
}

/// A number that needs more than 16 bits keeps its lowest.
pub fn put_short(bytes: &mut [u8], place: usize, number: usize) {
    bytes[place..place + 2].copy_from_slice(&(number as u16).to_le_bytes());
}

/// Writes a number of 16 bits with its bytes exchanged.
pub fn exchange(bytes: &mut [u8], place: usize) {
    bytes[place..place + 2].reverse();
}

/// The number of 32 bits at a place.
#[inline]
pub fn number(bytes: &[u8], place: usize) -> u32 {
    u32::from_le_bytes(bytes[place..place + 4].try_into().expect("four bytes"))
}

pub fn put_number(bytes: &mut [u8], place: usize, number: u32) {
    bytes[place..place + 4].copy_from_slice(&number.to_le_bytes());
}
