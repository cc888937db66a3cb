//! What stands on flash, by document 01: headers, and slips made for a checksum. For making cases; the crate is not asked.

const CASTAGNOLI: u32 = 0x82f6_3b78;

/// The data CRC before its adjustment.
pub fn raw_data_crc(bytes: &[u8]) -> u32 {
    let mut register = 0xeeee_eeee_u32;
    for byte in bytes {
        register ^= u32::from(*byte);
        for _ in 0..8 {
            let is_divided = register & 1 == 1;
            register >>= 1;
            if is_divided {
                register ^= CASTAGNOLI;
            }
        }
    }
    !register
}

pub fn data_crc(bytes: &[u8]) -> u32 {
    match raw_data_crc(bytes) {
        0 => 1,
        raw if matches!(raw & 0xff, 0 | 0xff) => raw ^ 1,
        raw => raw,
    }
}

pub fn length_crc(length: u16) -> u16 {
    let mut register = 0xffff_u16;
    for byte in length.to_le_bytes() {
        register ^= u16::from(byte);
        for _ in 0..8 {
            let is_divided = register & 1 == 1;
            register >>= 1;
            if is_divided {
                register ^= 0x1a2e;
            }
        }
    }
    match !register {
        0xffff => 0xfffe,
        crc => crc,
    }
}

/// A header with this data CRC and length, padded with FF up to a word.
pub fn header(word: usize, crc: u32, length: u16) -> Vec<u8> {
    let mut bytes = crc.to_le_bytes().to_vec();
    bytes.extend(length.to_le_bytes());
    bytes.extend(length_crc(length).to_le_bytes());
    bytes.resize(8_usize.next_multiple_of(word), 0xff);
    bytes
}

/// A slip as a push writes it: header and payload, the last word padded with zeros.
pub fn item(word: usize, slip: &[u8]) -> Vec<u8> {
    let mut bytes = header(word, data_crc(slip), slip.len() as u16);
    bytes.extend(slip);
    bytes.resize(bytes.len().next_multiple_of(word), 0);
    bytes
}

/// The prefix and four bytes more, such that the data CRC is `wanted` before its adjustment. The register is run back from the
/// end; what it then differs by from the register after the prefix are the four bytes.
pub fn with_raw_data_crc(prefix: &[u8], wanted: u32) -> Vec<u8> {
    let mut register = !wanted;
    for _ in 0..32 {
        let is_divided = register >> 31 == 1;
        register = if is_divided {
            (register ^ CASTAGNOLI) << 1 | 1
        } else {
            register << 1
        };
    }
    let last = register ^ !raw_data_crc(prefix);
    [prefix, &last.to_le_bytes()].concat()
}
