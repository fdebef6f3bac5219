//! The detector map. The selection stands inside `init_hardware`, so each case is a bring-up.

use crate::bus::{Bus, ADDRESS};
use crate::bytes::hex;
use crate::list::{Kind, List};
use crate::numbers::Numbers;
use vl53l0x::VL53L0x;

/// Transfers of a bring-up that reads once in each of its three waits.
const BRING_UP: usize = 153 + 3;

const SCATTERED: [u8; 6] = [0x0F, 0xF0, 0x03, 0x00, 0x80, 0x01];
/// A few dead detectors in each byte but one.
const DAMAGED: [u8; 6] = [0xF7, 0xDB, 0xFF, 0x7F, 0xBE, 0xEF];

/// The map that bring-up writes, on a sensor that answers well.
fn selection(map: [u8; 6], count: u8, aperture: bool) -> [u8; 6] {
    assert!(count < 128, "the sensor gives seven bits");
    let info = count | u8::from(aperture) << 7;
    let mut bus = Bus::new(|written: &[u8], read: &mut [u8]| {
        if let [register] = *written {
            let reply: &[u8] = match register {
                0xC0 => &[0xEE],
                0x92 => &[info],
                0xB0 => &map,
                0x83 | 0x13 => &[0x01],
                0x01 => &[0xE8],
                0x51 => &[0x00, 0x96],
                0x71 => &[0x01, 0xFE],
                0x50 => &[0x06],
                0x46 => &[0x25],
                0x70 => &[0x04],
                0x60 | 0x84 | 0x89 | 0x91 => &[0x00],
                _ => panic!("bring-up reads {register:02X}"),
            };
            read.copy_from_slice(reply);
        }
        Ok(())
    });
    VL53L0x::with_address(&mut bus, ADDRESS).expect("bring-up succeeds");
    assert_eq!(bus.transfers.len(), BRING_UP);
    let mut maps = bus.transfers.iter().filter(|transfer| transfer.written[0] == 0xB0 && transfer.written.len() > 1);
    let (write, other) = (maps.next().expect("the map is written"), maps.next());
    assert!(other.is_none() && write.read == 6);
    write.written[1..].try_into().expect("six bytes")
}

pub fn list() -> List {
    let mut list = List::new("spad");
    let good = [0xFF; 6];
    for count in 0..128 {
        both(&mut list, good, count);
    }
    for count in [0, 1, 47, 48, 127] {
        both(&mut list, [0; 6], count);
    }
    for bit in 0..48 {
        for count in 0..3 {
            both(&mut list, bits(&[bit]), count);
        }
    }
    for near_first_aperture in [&[11, 12][..], &[11, 13], &[12, 13], &[11, 12, 13], &[7, 8, 11, 12, 47], &[0, 13, 47]] {
        for count in 0..5 {
            both(&mut list, bits(near_first_aperture), count);
        }
    }
    // Where the count runs out at a byte's end, one detector before it, and one after it.
    for map in [good, SCATTERED, DAMAGED] {
        for bytes in 1..=6 {
            for aperture in [false, true] {
                let most = available(map, aperture, bytes);
                for count in [most.saturating_sub(1), most, most + 1] {
                    record(&mut list, map, count, aperture);
                }
            }
        }
    }
    let mut numbers = Numbers::new(2);
    for _ in 0..100 {
        let map = random_map(&mut numbers);
        for aperture in [false, true] {
            let most = available(map, aperture, 6);
            for count in [most.saturating_sub(1), most, most + 1] {
                record(&mut list, map, count, aperture);
            }
        }
    }
    for _ in 0..1500 {
        let map = random_map(&mut numbers);
        let count = if numbers.one_in(4) { numbers.below(128) } else { numbers.below(50) };
        record(&mut list, map, count as u8, numbers.one_in(2));
    }
    list.must_have("spads FFFFFFFFFFFF 5 1 00F001000000 5");
    list.must_have("spads FFFFFFFFFFFF 0 1 000000000000 0");
    list.must_have("spads FFFFFFFFFFFF 47 0 FFFFFFFFFF7F 47");
    list.must_have("spads 0FF003008001 7 0 0F7000000000 7");
    list.must_have("spads 0FF003008001 6 1 00F003000000 6");
    list
}

fn both(list: &mut List, map: [u8; 6], count: u8) {
    record(list, map, count, false);
    record(list, map, count, true);
}

fn record(list: &mut List, map: [u8; 6], count: u8, aperture: bool) {
    let new = selection(map, count, aperture);
    let flag = u8::from(aperture);
    let [a, b, c, d, e, f] = map;
    let line = format!("spads {} {count} {flag} {} {}", hex(&map), hex(&new), ones(&new));
    list.record(Kind::Map, &[a, b, c, d, e, f, count, flag], &line, &[]);
}

fn bits(positions: &[usize]) -> [u8; 6] {
    let mut map = [0; 6];
    for bit in positions {
        map[bit / 8] |= 1 << (bit % 8);
    }
    map
}

fn ones(bytes: &[u8]) -> u8 {
    bytes.iter().map(|byte| byte.count_ones() as u8).sum()
}

/// The good detectors that may be used in the first bytes of a map: only chooses counts.
fn available(map: [u8; 6], aperture: bool, bytes: usize) -> u8 {
    let [_, b, c, d, e, f] = map;
    let usable = if aperture { [0, b & 0xF0, c, d, e, f] } else { map };
    ones(&usable[..bytes])
}

/// A map in which each detector is good with one of the chances 1/8 to 7/8.
fn random_map(numbers: &mut Numbers) -> [u8; 6] {
    let eighths = 1 + numbers.below(7);
    let good: Vec<usize> = (0..48).filter(|_| numbers.below(8) < eighths).collect();
    bits(&good)
}
