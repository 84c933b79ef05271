//! The checksum of a store's file.

/// ECMA-182's polynomial, lowest bit first.
const POLYNOMIAL: u64 = 0xc96c_5795_d787_0f42;

/// What each value of a byte adds to a checksum.
const TABLE: [u64; 256] = table();

#[allow(clippy::indexing_slicing)] // The index is below 256.
const fn table() -> [u64; 256] {
    let mut table = [0; 256];
    let mut i = 0;
    while i < 256 {
        let mut entry = i as u64;
        let mut bit = 0;
        while bit < 8 {
            let carry = if entry & 1 == 1 { POLYNOMIAL } else { 0 };
            entry = entry >> 1 ^ carry;
            bit += 1;
        }
        table[i] = entry;
        i += 1;
    }
    table
}

/// CRC-64/XZ.
#[allow(clippy::indexing_slicing)] // The index is a byte.
pub fn crc64(bytes: &[u8]) -> u64 {
    let step = |crc: u64, byte: &u8| TABLE[usize::from(crc as u8 ^ byte)] ^ crc >> 8;
    !bytes.iter().fold(!0, step)
}

#[cfg(test)]
mod tests {
    use super::*;

    #[test]
    fn the_published_check_value() {
        assert_eq!(crc64(b"123456789"), 0x995d_c9bb_df19_39fa);
        assert_eq!(crc64(b""), 0);
    }
}
