//! The cases of the timing budget: both sides of every edge, found on the Rust itself, and pseudo-random ones.

use crate::budget::{get, set, Replies, Set, LEAST};
use crate::bytes::with;
use crate::clock::{most_microseconds, most_microseconds_within};
use crate::numbers::{last_that, Numbers};
use crate::place::run;
use vl53l0x::inner::{decode_timeout, decode_vcsel_period};

pub struct Case {
    pub replies: Replies,
    pub budget: u32,
}

pub fn replies(sequence: u8, pre_range: u16, final_range: u16, pre_period: u8, msrc: u8, final_period: u8) -> Replies {
    let ([a, b], [c, d]) = (pre_range.to_be_bytes(), final_range.to_be_bytes());
    [sequence, a, b, c, d, pre_period, msrc, final_period]
}

/// Sequence bit 6: pre-range is on.
const PRE_RANGE: u8 = 0x40;

/// The bench replies: the budget reads of SCOPE 11.1.
pub const BENCH: Replies = [0xE8, 0x00, 0x96, 0x01, 0xFE, 0x06, 0x25, 0x04];
const BENCH_BUDGET: u32 = 33_000;

pub fn cases() -> Vec<Case> {
    let mut numbers = Numbers::new(5);
    let random = (0..3000).map(|_| random_case(&mut numbers));
    edges().into_iter().chain(least_budgets()).chain(random).collect()
}

/// Both sides of every edge.
pub fn edges() -> Vec<Case> {
    let mut cases = Vec::new();
    let mut add = |replies, budget| cases.push(Case { replies, budget });
    for replies in changes().into_iter().chain(place_6_edges()) {
        add(replies, BENCH_BUDGET);
    }
    for sequence in 0..=255 {
        add(with(BENCH, 0, sequence), BENCH_BUDGET);
    }
    for replies in timings() {
        for budget in budget_edges(replies) {
            add(replies, budget);
        }
    }
    let no_pre_range = replies(0x10, 0x0000, 0x0000, 0x13, 0x98, 0x04);
    add(no_pre_range, 26_282); // word 0
    let wide = replies(0xC0, 0x0FFF, 0x0FFF, 0, 0, 0);
    add(wide, 503_268); // place 9: 32767 clocks and pre's 32769
    add(wide, 753_890); // no place: 65631 clocks, cut to 95
    cases
}

/// Budgets below the least one and on both sides of it, also where the replies have a place or leave time enough.
fn least_budgets() -> Vec<Case> {
    let mut numbers = Numbers::new(10);
    let mut cases = Vec::new();
    for replies in changes().into_iter().chain(timings()) {
        for budget in [0, LEAST - 1, LEAST] {
            cases.push(Case { replies, budget });
        }
    }
    for _ in 0..200 {
        cases.push(Case { replies: random_replies(&mut numbers), budget: numbers.below(LEAST) });
    }
    cases
}

pub fn random_case(numbers: &mut Numbers) -> Case {
    let replies = random_replies(numbers);
    Case { replies, budget: random_budget(numbers, replies) }
}

/// The bench replies with one or several of them at or beyond an edge.
pub fn changes() -> Vec<Replies> {
    single_changes().into_iter().chain(several_bad()).collect()
}

/// The bench replies with one reply at or beyond an edge, with pre-range on and off.
fn single_changes() -> Vec<Replies> {
    let mut all = Vec::new();
    for sequence in [BENCH[0], BENCH[0] & !PRE_RANGE] {
        let bench = with(BENCH, 0, sequence);
        all.push(bench);
        for high in [0x08, 0x0F, 0x10, 0xFF] {
            all.extend([with(bench, 1, high), with(bench, 3, high)]);
        }
        // Final equal to pre and one below it, changing either.
        all.extend([0x0096, 0x0095].map(|word: u16| replies(sequence, 0x0096, word, 0x06, 0x25, 0x04)));
        all.extend([0x01FE, 0x01FF].map(|word: u16| replies(sequence, word, 0x01FE, 0x06, 0x25, 0x04)));
        for index in [5, 6, 7] {
            all.extend([0x00, 0x7E, 0x7F, 0x80, 0xFE, 0xFF].map(|byte| with(bench, index, byte)));
        }
    }
    all
}

/// A bad reply together with later ones, from each reply on: the first place counts.
fn several_bad() -> Vec<Replies> {
    let mut all = vec![[0xFF; 8], with([0xFF; 8], 0, 0x00)];
    for first in [3, 5, 6, 7] {
        let mut bad = [0xFF; 8];
        bad[..first].copy_from_slice(&BENCH[..first]);
        all.push(bad);
    }
    // Place 3 before a bad 0x50; 0x50 before 0x46; 0x46 alone before place 6; 0x70 before place 6.
    all.push(replies(0xE8, 0x0096, 0x0095, 0xFF, 0xFF, 0xFF));
    all.push(replies(0xE8, 0x0096, 0x01FE, 0xFF, 0xFF, 0x04));
    all.push(replies(0xE8, 0x0FFF, 0x0FFF, 0xFE, 0xFF, 0xFE));
    all.push(replies(0xE8, 0x0FFF, 0x0FFF, 0xFE, 0x25, 0xFF));
    // Pre and final both over.
    all.push(replies(0xA8, 0x0FFF, 0x0FFF, 0xFE, 0x25, 0xFE));
    all
}

/// For some periods and every exponent, the last low byte whose microseconds fit and the next, in pre and in final.
fn place_6_edges() -> Vec<Replies> {
    // Final less pre: 6784 clocks fit, 6785 are over by the sum alone, 6786 by the product.
    let mut all = [0x0020, 0x001F, 0x001E].map(|pre| replies(0xE8, pre, 0x05D5, 0x06, 0x25, 0x52)).to_vec();
    for period in [0x08, 0x09, 0x30, 0x52, 0x7E, 0xFE] {
        for exponent in 0..16 {
            // Final has 0x0FFF while pre-range is on, so that place 3 stays away.
            let pre_on = |low| replies(0xE8, exponent << 8 | low as u16, 0x0FFF, period, 0x25, 0x04);
            let pre_off = |low| replies(0xA8, exponent << 8 | low as u16, 0x0000, period, 0x25, 0x04);
            let final_on = |low| replies(0xE8, 0x0000, exponent << 8 | low as u16, 0x06, 0x25, period);
            let final_off = |low| replies(0xA8, 0x0096, exponent << 8 | low as u16, 0x06, 0x25, period);
            let kinds: [&dyn Fn(u32) -> Replies; 4] = [&pre_on, &pre_off, &final_on, &final_off];
            for replies in kinds {
                let fits = |low| get(replies(low)).0.is_ok();
                // From exponent 9 on the low byte's top bits are dropped, so the edge is only one of several.
                if fits(0) && !fits(255) {
                    let last = last_that(0, 255, fits);
                    all.extend([replies(last), replies(last + 1)]);
                }
            }
        }
    }
    all
}

/// Replies without a place, whose budgets are searched for edges.
fn timings() -> Vec<Replies> {
    let mut all = vec![
        BENCH,
        with(BENCH, 0, BENCH[0] & !PRE_RANGE),
        replies(0xC0, 0x0FFF, 0x0FFF, 0x00, 0x00, 0x00),
        replies(0x80, 0x0FFF, 0x0FFF, 0x00, 0x00, 0x00),
        replies(0x10, 0x0000, 0x0000, 0x13, 0x98, 0x04),
        replies(0xFF, 0x0396, 0x0496, 0x0E, 0xFE, 0x0C),
        replies(0xFF, 0x05D3, 0x0FFF, 0x52, 0xFE, 0x04),
        replies(0xE8, 0x0600, 0x0600, 0x06, 0x25, 0x07),
        replies(0xE8, 0x0001, 0x0002, 0x06, 0x25, 0x00),
    ];
    // Final periods from the least to the largest, and 0: place 8.
    for period in [0x01, 0x06, 0x07, 0x08, 0x10, 0x7E, 0x7F, 0x80, 0x81, 0xFE] {
        all.extend([BENCH, with(BENCH, 0, BENCH[0] & !PRE_RANGE)].map(|bench| with(bench, 7, period)));
        all.push(replies(0xFC, 0x0496, 0x04FE, 0x0C, 0xFE, period));
    }
    // Every set of steps, with timings that use more than the least budget.
    for steps in 0..32 {
        let sequence = (steps & 0x07) << 2 | (steps & 0x18) << 3;
        all.push(replies(sequence, 0x0496, 0x0497, 0x1E, 0xFE, 0x04));
    }
    all
}

/// The least budget and the largest; the last without time, before place 7, before clocks are cut to 16 bits (once and
/// twice) and before place 9 (uncut and cut), each with the next one.
fn budget_edges(replies: Replies) -> Vec<u32> {
    let at = |place, budget| set(replies, budget).is_place(place);
    assert!(get(replies).0.is_ok());
    let fits = last_that(LEAST, u32::MAX, |budget| !at(7, budget));
    let period = decode_vcsel_period(replies[7]);
    let used = fits - most_microseconds(period);
    let mut edges = vec![LEAST, used - 1, used, fits, fits + 1, u32::MAX];
    if period != 0 {
        let mut first = used.max(LEAST);
        for top in [65_535, 131_071] {
            let last = used + most_microseconds_within(top, period);
            edges.extend([last, last + 1]);
            if at(9, last) && !at(9, first) {
                let before = last_that(first, last, |budget| !at(9, budget));
                edges.extend([before, before + 1]);
            }
            first = last + 1;
        }
    }
    edges.retain(|budget| *budget >= LEAST);
    edges.sort();
    edges.dedup();
    edges
}

fn random_replies(numbers: &mut Numbers) -> Replies {
    let sequence = if numbers.one_in(2) { 0xE8 } else { numbers.byte() };
    let mut word = || {
        let exponent = if numbers.one_in(8) { numbers.below(18) } else { numbers.below(9) };
        (exponent << 8) as u16 | u16::from(numbers.byte())
    };
    let (mut pre_range, mut final_range) = (word(), word());
    // Mostly without place 3.
    let decoded = (run(|| decode_timeout(pre_range)), run(|| decode_timeout(final_range)));
    if matches!(decoded, (Ok(pre), Ok(other)) if pre > other) && !numbers.one_in(8) {
        (pre_range, final_range) = (final_range, pre_range);
    }
    let mut period = || match numbers.below(64) {
        0 => 0xFF,
        1 => 0x7F,
        2..=9 => numbers.byte(),
        _ => numbers.below(32) as u8,
    };
    let (pre_period, final_period) = (period(), period());
    let msrc = if numbers.one_in(64) { 0xFF } else { numbers.byte() };
    replies(sequence, pre_range, final_range, pre_period, msrc, final_period)
}

/// The least budget that is not refused and leaves time for the final range.
pub fn least_with_time(replies: Replies) -> u32 {
    let no_time = |budget| set(replies, budget) == Set::NoTime;
    if no_time(LEAST) {
        last_that(LEAST, u32::MAX, no_time) + 1
    } else {
        LEAST
    }
}

/// Near the time in use, some way above it, or anything.
fn random_budget(numbers: &mut Numbers, replies: Replies) -> u32 {
    let used = least_with_time(replies);
    match numbers.below(8) {
        0 => (used - 2).max(LEAST) + numbers.below(5),
        1 => numbers.spread(32).max(LEAST),
        2 => LEAST + numbers.below(used - LEAST + 1),
        _ => used + numbers.spread(22),
    }
}
