//! A sensor that works: its registers keep what is written, and its waits end.

use crate::numbers::Numbers;
use std::collections::VecDeque;

#[derive(Clone)]
pub struct CalmSensor {
    /// A page of registers for each value that the driver gives to register 0xFF.
    pages: [[u8; 256]; 8],
    page: usize,
    /// The idle reads of the waits to come; a few once these are used up.
    waits: VecDeque<u32>,
    /// The idle reads that are left of a wait in progress.
    idle: Option<u32>,
    numbers: Numbers,
}

impl CalmSensor {
    /// One of many: the numbers decide what the factory left in the registers that the driver reads.
    pub fn new(mut numbers: Numbers) -> Self {
        let mut pages = [[0; 256]; 8];
        pages[0].iter_mut().for_each(|byte| *byte = numbers.byte());
        pages[0][0xC0] = 0xEE;
        pages[1][0x91] = numbers.byte();
        pages[6][0x83] = numbers.byte();
        pages[7][0x92] = numbers.byte();
        CalmSensor { pages, page: 0, waits: VecDeque::new(), idle: None, numbers }
    }

    /// The sensor with so many idle reads in the next waits.
    pub fn idle(&self, reads: &[u32]) -> Self {
        CalmSensor { waits: reads.iter().copied().collect(), idle: None, ..self.clone() }
    }

    /// The sensor for one call, in which the transfers with these numbers fail with these codes.
    pub fn failing<'a>(
        &'a mut self,
        failures: &'a [(usize, u8)],
    ) -> impl FnMut(usize, &[u8], &mut [u8]) -> Result<(), u8> + 'a {
        self.page = 0; // a call that ended early may have left another
        move |n, written, read| match failures.iter().find(|(failing, _)| *failing == n) {
            Some((_, code)) => Err(*code),
            None => {
                self.reply(written, read);
                Ok(())
            }
        }
    }

    fn reply(&mut self, written: &[u8], read: &mut [u8]) {
        let register = usize::from(written[0]);
        match *written {
            [0xFF, page] => self.page = usize::from(page),
            _ => self.pages[self.page][register..][..written.len() - 1].copy_from_slice(&written[1..]),
        }
        read.copy_from_slice(&self.pages[self.page][register..][..read.len()]);
        let any = self.numbers.byte();
        match (self.page, written) {
            (7, [0x83]) => read[0] = if self.is_idle() { 0 } else { any.max(1) },
            (0, [0x13]) => read[0] = if self.is_idle() { any & 0xF8 } else { any | u8::from(any & 7 == 0) },
            (0, [0x00]) => read[0] = if self.is_idle() { any | 1 } else { any & 0xFE },
            (0, [0x1E]) => read.copy_from_slice(&(self.numbers.below(8191) as u16).to_be_bytes()),
            _ => (),
        }
    }

    /// The next read of a wait.
    fn is_idle(&mut self) -> bool {
        let left = match self.idle {
            Some(left) => left,
            None => self.waits.pop_front().unwrap_or_else(|| self.numbers.below(4)),
        };
        self.idle = left.checked_sub(1);
        left > 0
    }
}
