//! The distance window, millimetres to register words and back.

use crate::bus::{Bus, FRESH};
use crate::list::{Kind, List};
use crate::numbers::Numbers;
use vl53l0x::inner::driver;
use vl53l0x::Error;

pub const EDGES: [u16; 19] =
    [0, 1, 2, 3, 100, 299, 300, 301, 302, 4095, 4096, 8188, 8189, 8190, 8191, 8192, 16382, 65534, 65535];

/// The words written at 0x0E and then at 0x0C, or none if the window is refused.
fn written(low_mm: u16, high_mm: u16) -> Option<(u16, u16)> {
    let mut bus = Bus::new(|_: &[u8], _: &mut [u8]| Ok(()));
    let answer = driver(&mut bus, FRESH).set_interrupt_thresholds_mm(low_mm, high_mm);
    match (answer, &bus.transfers[..]) {
        (Ok(()), [low, high]) => Some((low.word_at(0x0E), high.word_at(0x0C))),
        (Err(Error::InvalidArgument), []) => None,
        (answer, transfers) => panic!("{low_mm} {high_mm}: {answer:?} {transfers:?}"),
    }
}

/// The millimetres that a word reads as from either register.
fn read(word: u16) -> u16 {
    let mut bus = Bus::new(|_: &[u8], read: &mut [u8]| {
        read.copy_from_slice(&word.to_be_bytes());
        Ok(())
    });
    let (low_mm, high_mm) = driver(&mut bus, FRESH).get_interrupt_thresholds_mm().expect("no failure");
    assert_eq!(low_mm, high_mm);
    let registers: Vec<&[u8]> = bus.transfers.iter().map(|transfer| &transfer.written[..]).collect();
    assert_eq!(registers, [[0x0E], [0x0C]]);
    low_mm
}

pub fn list() -> List {
    let mut list = List::new("threshold");
    list.rows("set_interrupt_thresholds_mm", 65536, |mm| match written(mm as u16, mm as u16) {
        Some((low, high)) => {
            assert_eq!(low, high);
            low.to_string()
        }
        None => "R".to_string(),
    });
    list.rows("get_interrupt_thresholds_mm", 65536, |word| read(word as u16).to_string());

    for low in EDGES {
        for high in EDGES {
            record(&mut list, low, high);
        }
    }
    let mut numbers = Numbers::new(4);
    for _ in 0..250 {
        let (a, b) = (numbers.below(8200) as u16, numbers.below(8200) as u16);
        record(&mut list, a.min(b), a.max(b));
        let low = numbers.spread(16) as u16;
        let near = low.saturating_sub(2).saturating_add(numbers.below(5) as u16);
        let any = numbers.spread(16) as u16;
        record(&mut list, low, if numbers.one_in(2) { any } else { near });
    }
    list.must_have("window 8190 8190 4095 4095");
    list.must_have("window 8190 8191 R");
    list.must_have("window 301 302 150 151");
    assert_eq!(read(150), 300);
    list
}

fn record(list: &mut List, low: u16, high: u16) {
    let answer = written(low, high);
    let outcome = if answer.is_some() { "words" } else { "refused" };
    let answer = answer.map_or("R".to_string(), |(low, high)| format!("{low} {high}"));
    let bytes = [low.to_be_bytes(), high.to_be_bytes()].concat();
    list.record(Kind::Window, &bytes, &format!("window {low} {high} {answer}"), &[outcome.to_string()]);
}
