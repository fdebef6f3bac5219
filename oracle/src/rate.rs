//! The signal rate limit, a float: as the word that is written, and of a word that is read.

use crate::bus::{Bus, Transfer, ADDRESS, FRESH};
use crate::bytes::hex;
use crate::list::{Kind, List};
use crate::numbers::Numbers;
use vl53l0x::inner::{driver, get_signal_rate_limit, set_signal_rate_limit};

/// Words to read: 0, powers of two and their neighbours, the greatest, and two with unequal bytes.
pub const WORDS: [u16; 19] =
    [0, 1, 2, 32, 127, 128, 129, 255, 256, 257, 0x1234, 0x3412, 32767, 32768, 32769, 65408, 65533, 65534, 65535];

/// The word written, or none if the limit is refused.
fn word(bits: u32) -> Option<u16> {
    let mut bus = Bus::new(|_: &[u8], _: &mut [u8]| Ok(()));
    let accepted = set_signal_rate_limit(&mut driver(&mut bus, FRESH), f32::from_bits(bits)).expect("no failure");
    match (accepted, &bus.transfers[..]) {
        (true, [write]) => Some(write.word_at(0x44)),
        (false, []) => None,
        (accepted, transfers) => panic!("{bits:08X}: {accepted} {transfers:?}"),
    }
}

/// The bits of the limit that a word is read as.
fn read(word: u16) -> u32 {
    let mut bus = Bus::new(|_: &[u8], read: &mut [u8]| {
        read.copy_from_slice(&word.to_be_bytes());
        Ok(())
    });
    let limit = get_signal_rate_limit(&mut driver(&mut bus, FRESH)).expect("no failure");
    let [Transfer { address: ADDRESS, written, read: 2 }] = &bus.transfers[..] else {
        panic!("{:02X?}", bus.transfers)
    };
    assert_eq!(written, &[0x44]);
    limit.to_bits()
}

pub fn list() -> List {
    let mut list = List::new("rate");
    list.rows("get_signal_rate_limit", 65536, |word| hex(&read(word as u16).to_be_bytes()));
    bench();
    for bits in edges() {
        record(&mut list, bits);
    }
    let mut numbers = Numbers::new(3);
    for _ in 0..1000 {
        record(&mut list, numbers.next() as u32);
    }
    // Every exponent up to the last in range, then those of 1/256 to 511.
    for (first, count) in [(0, 136), (119, 17)] {
        for _ in 0..1000 {
            let exponent = first + numbers.below(count);
            record(&mut list, exponent << 23 | numbers.below(1 << 23));
        }
    }
    for line in ["rate 3E800000 32", "rate 43FFFEB8 65534", "rate 43FFFEB9 refused", "rate 80000000 0"] {
        list.must_have(line);
    }
    list
}

/// Values of limits that are read; and set again, each but the last gives its word.
fn bench() {
    let bits = [0x00000000, 0x3C000000, 0x3E800000, 0x3F800000, 0x43FFFE00, 0x43FFFF00];
    assert_eq!([0, 1, 32, 128, 65534, 65535].map(read), bits);
    assert!((0..65535).all(|limit| word(read(limit)) == Some(limit)));
    assert_eq!(word(read(65535)), None);
}

fn record(list: &mut List, bits: u32) {
    let answer = word(bits);
    let outcome = if answer.is_some() { "word" } else { "refused" };
    let answer = answer.map_or("refused".to_string(), |word| word.to_string());
    let bytes = bits.to_be_bytes();
    list.record(Kind::Rate, &bytes, &format!("rate {} {answer}", hex(&bytes)), &[outcome.to_string()]);
}

pub fn edges() -> Vec<u32> {
    // Zeros, the least numbers, the last subnormal and the first normal number, of both signs.
    let mut edges = vec![0x00000000, 0x80000000, 0x00000001, 0x80000001];
    edges.extend([0x007FFFFF, 0x00800000, 0x807FFFFF, 0x80800000]);
    // 0.25; 511.99 and above.
    edges.extend([0x3E800000, 0x43FFFEB7, 0x43FFFEB8, 0x43FFFEB9, 0x43FFFEBA, 0x43FFFF00, 0x43FFFFFF, 0x44000000]);
    // 65535, 65536 and 2^32 as limits, the largest numbers.
    edges.extend([0x477FFF00, 0x47800000, 0x4F800000, 0x7F7FFFFF, 0xFF7FFFFF]);
    // Infinities, NaN.
    edges.extend([0x7F800000, 0xFF800000]);
    edges.extend([0x7F800001, 0xFF800001, 0x7FC00000, 0xFFC00000, 0x7FFFFFFF, 0xFFFFFFFF]);
    for exponent in 127 - 10..=127 + 10 {
        let power = exponent << 23;
        edges.extend([power - 1, power, power + 1, 0x8000_0000 | power]);
    }
    let steps = (1..=40).chain(127..=129).chain(255..=257).chain([1000, 4095, 4096, 4097]);
    for step in steps.chain(32767..=32769).chain(65532..=65535) {
        let bits = (step as f32 / 128.0).to_bits();
        edges.extend([bits - 1, bits, bits + 1]);
    }
    edges
}
