//! Stands in for zstd: it always errs, so every block of the original stays plain and its 4 bytes are known.

pub mod bulk {
    use std::io::{Error, Result};

    pub fn compress_to_buffer(_source: &[u8], _target: &mut [u8], _level: i32) -> Result<usize> {
        Err(Error::other("blocks stay plain"))
    }

    pub fn decompress_to_buffer(_source: &[u8], _target: &mut [u8]) -> Result<usize> {
        Err(Error::other("blocks stay plain"))
    }
}
