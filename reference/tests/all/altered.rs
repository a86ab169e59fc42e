//! A file with one field written over.

use reference::bytes::{write_16, write_24, write_32};

pub fn with_byte(mut file: Vec<u8>, place: usize, byte: u8) -> Vec<u8> {
    file[place] = byte;
    file
}

pub fn with_16(mut file: Vec<u8>, place: usize, value: u16) -> Vec<u8> {
    write_16(&mut file, place, value);
    file
}

pub fn with_24(mut file: Vec<u8>, place: usize, value: u32) -> Vec<u8> {
    write_24(&mut file, place, value);
    file
}

pub fn with_32(mut file: Vec<u8>, place: usize, value: u32) -> Vec<u8> {
    write_32(&mut file, place, value);
    file
}
