//! The C library beside the reference, compared on generated cases and soaked; and beside the peer, the reference and
//! the library of another commit, timed.
//! Each module uses only modules listed before it.

pub mod capi;
pub mod expected;
pub mod desk;
pub mod mirror_law;
pub mod compare;
pub mod soak;
pub mod loaded;
pub mod timing;
pub mod ratios;
pub mod marked_sheets;
pub mod gates;
pub mod windows;
pub mod sets;
