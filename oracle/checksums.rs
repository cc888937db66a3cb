//! Makes checksum cases, and asks the crate's own functions for the answers. Built and run by oracle/checksums.
//!
//! The first file named gets the cases: for each a length in two bytes, low byte first, and that many bytes. The second gets
//! what a program has to print: the check value of CRC-32C, then a line for each case: the length, the length CRC, the data CRC.
use std::collections::HashSet;
use std::num::NonZeroU32;

// crc16, adapted_crc32, crc32 and crc32_with_initial, as the crate has them
include!(env!("CUT_FROM_THE_CRATE"));

/// The published check value: the CRC-32C of these bytes, with the usual start.
const CHECK_INPUT: &[u8] = b"123456789";
const CHECK_START: u32 = 0xffff_ffff;
const CHECK_VALUE: u32 = 0xe306_9283;

const CASTAGNOLI: u32 = 0x82f6_3b78;

/// Lengths past 70. They are few and none is longer, so that `rt try cases` gets through too: its interpreter stops after ten million
/// steps, and a byte takes some two hundred. Slips as long as the largest page takes are in crates/replay.
const LONGER: [usize; 17] = [
    100, 127, 128, 129, 255, 256, 257, 511, 512, 513, 1000, 1023, 1024, 1025, 2048, 4095, 4096,
];

/// Raw data CRCs around the crate's adjustments, those of document 01 among them.
const RAW_DATA_CRCS: [u32; 14] = [
    0,
    1,
    0xff,
    0xfe,
    0x100,
    0x1ff,
    0x1234_5600,
    0x1234_56ff,
    0x1234_5678,
    0xff00_0000,
    0xff00_00ff,
    0xffff_ff00,
    0xffff_fffe,
    0xffff_ffff,
];

/// A small fixed generator (xorshift of 32 bits).
struct Generator(u32);

impl Generator {
    fn bytes(&mut self, length: usize) -> Vec<u8> {
        (0..length)
            .map(|_| {
                self.0 ^= self.0 << 13;
                self.0 ^= self.0 >> 17;
                self.0 ^= self.0 << 5;
                (self.0 >> 11) as u8
            })
            .collect()
    }
}

/// The cases so far, none of them twice.
struct Cases {
    list: Vec<Vec<u8>>,
    seen: HashSet<Vec<u8>>,
}

impl Cases {
    fn add(&mut self, bytes: Vec<u8>) {
        assert!(bytes.len() <= 0xffff);
        if self.seen.insert(bytes.clone()) {
            self.list.push(bytes);
        }
    }
}

fn counting(length: usize) -> Vec<u8> {
    (0..length).map(|i| i as u8).collect()
}

/// The prefix and four bytes more, such that the data CRC is `wanted` before the crate adjusts it. The register is run back
/// from the end; what it then differs by from the register after the prefix are the four bytes.
fn with_data_crc(prefix: &[u8], wanted: u32) -> Vec<u8> {
    let mut register = !wanted;
    for _ in 0..32 {
        let is_divided = register >> 31 == 1;
        register = if is_divided {
            (register ^ CASTAGNOLI) << 1 | 1
        } else {
            register << 1
        };
    }
    let last = register ^ !crc32(prefix);
    let bytes = [prefix, &last.to_le_bytes()].concat();
    assert_eq!(crc32(&bytes), wanted);
    bytes
}

/// Inputs whose length CRC is 0xFFFE, which stands for the raw values 0xFFFE and 0xFFFF: all of one and two bytes, and the
/// first eight of three.
fn with_adjusted_length_crc() -> Vec<Vec<u8>> {
    let adjusted = |bytes: &Vec<u8>| crc16(bytes) == 0xfffe;
    let one = (0..=0xff).map(|a| vec![a]);
    let two = (0..=0xffff_u16).map(|n| n.to_le_bytes().to_vec());
    let three = (0..=0xff_ffff_u32).map(|n| n.to_le_bytes()[..3].to_vec());
    one.filter(adjusted)
        .chain(two.filter(adjusted))
        .chain(three.filter(adjusted).take(8))
        .collect()
}

fn cases() -> Vec<Vec<u8>> {
    let mut cases = Cases {
        list: vec![],
        seen: HashSet::new(),
    };
    let mut generator = Generator(0x2026_1115);
    for length in 0..=70 {
        cases.add(vec![0; length]);
        cases.add(vec![0xff; length]);
        cases.add(counting(length));
        cases.add(generator.bytes(length));
    }
    for length in LONGER {
        if length < 1000 {
            cases.add(counting(length));
        }
        cases.add(generator.bytes(length));
    }

    // each single bit of a length field, and the lengths about the powers of two
    for shift in 0..16 {
        for length in [(1_u32 << shift) - 1, 1 << shift, (1 << shift) + 1] {
            cases.add((length as u16).to_le_bytes().to_vec());
        }
    }
    for length in [5_u16, 24, 1000, 4072, 4080, 0xfffe, 0xffff] {
        cases.add(length.to_le_bytes().to_vec());
    }
    for bytes in with_adjusted_length_crc() {
        cases.add(bytes);
    }

    for prefix in [&b""[..], b"slip ", &counting(60)] {
        for wanted in RAW_DATA_CRCS {
            cases.add(with_data_crc(prefix, wanted));
        }
    }
    cases.add(CHECK_INPUT.to_vec());
    cases.list
}

/// Makes sure that the cases reach each adjustment.
fn reach_every_adjustment(cases: &[Vec<u8>]) {
    let reaches = |raw: fn(u32) -> bool| cases.iter().any(|bytes| raw(crc32(bytes)));
    assert!(reaches(|raw| raw == 0));
    assert!(reaches(|raw| raw != 0 && raw & 0xff == 0));
    assert!(reaches(|raw| raw & 0xff == 0xff));
    // two bytes FF cancel the start 0xFFFF: the register ends at 0, and the raw length CRC is 0xFFFF
    assert!(cases.iter().any(|bytes| bytes == &[0xff, 0xff]) && crc16(&[0xff, 0xff]) == 0xfffe);
}

fn main() {
    let [_, cases_path, answers_path] = &std::env::args().collect::<Vec<_>>()[..] else {
        panic!("usage: checksums CASES ANSWERS");
    };
    let cases = cases();
    reach_every_adjustment(&cases);
    let check = crc32_with_initial(CHECK_INPUT, CHECK_START);
    assert_eq!(check, CHECK_VALUE);

    let mut input = vec![];
    let mut answers = format!("{check:08x}\n");
    for bytes in &cases {
        input.extend((bytes.len() as u16).to_le_bytes());
        input.extend(bytes);
        answers += &format!(
            "{} {:04x} {:08x}\n",
            bytes.len(),
            crc16(bytes),
            adapted_crc32(bytes)
        );
    }
    std::fs::write(cases_path, &input).unwrap();
    std::fs::write(answers_path, &answers).unwrap();
    println!(
        "{} cases, {} bytes in, {} bytes out",
        cases.len(),
        input.len(),
        answers.len()
    );
}
