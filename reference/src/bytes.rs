//! Unsigned fields of a file, low byte first. Each caller knows that the field is inside the file.

pub fn read_16(file: &[u8], place: usize) -> u16 {
    u16::from_le_bytes([file[place], file[place + 1]])
}

pub fn read_24(file: &[u8], place: usize) -> u32 {
    u32::from_le_bytes([file[place], file[place + 1], file[place + 2], 0])
}

pub fn read_32(file: &[u8], place: usize) -> u32 {
    u32::from_le_bytes([file[place], file[place + 1], file[place + 2], file[place + 3]])
}

pub fn write_16(file: &mut [u8], place: usize, value: u16) {
    file[place..place + 2].copy_from_slice(&value.to_le_bytes());
}

/// The value is below 2 to the 24th.
pub fn write_24(file: &mut [u8], place: usize, value: u32) {
    file[place..place + 3].copy_from_slice(&value.to_le_bytes()[..3]);
}

pub fn write_32(file: &mut [u8], place: usize, value: u32) {
    file[place..place + 4].copy_from_slice(&value.to_le_bytes());
}
