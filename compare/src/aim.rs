//! Random damage, aimed at what stands at a place.
use crate::damage::{texts, Damage, SEQUENCES};
use crate::encode::{Encoded, Rows, What};
use crate::limits::*;
use crate::rng::Rng;
use std::ops::Range;

/// A copy that is damaged at one to three places, and perhaps cut or extended.
pub fn damaged(rng: &mut Rng, of: &Encoded, image: bool) -> Vec<u8> {
    let fit = !rng.one_in(8);
    let mut aim = Aim { rng, damage: Damage { of: of.clone(), image, fit } };
    match aim.rng.below(8) {
        0 => aim.end(),
        1 => aim.one_text(),
        2 | 3 => {
            aim.resize();
            if aim.rng.one_in(3) {
                aim.change();
            }
        }
        4 => {
            aim.change();
            aim.change();
            if aim.rng.one_in(2) {
                aim.end();
            }
        }
        _ => aim.change(),
    }
    aim.damage.of.bytes
}

struct Aim<'a> {
    rng: &'a mut Rng,
    damage: Damage,
}

impl Aim<'_> {
    fn bytes(&mut self) -> &mut Vec<u8> {
        &mut self.damage.of.bytes
    }

    /// Cuts or extends.
    fn end(&mut self) {
        let length = self.bytes().len();
        match self.rng.below(4) {
            0 => {
                let end = self.rng.index(length.max(1));
                self.bytes().truncate(end);
            }
            1 => self.bytes().truncate(length.saturating_sub(1)),
            2 => {
                let byte = self.rng.next() as u8;
                self.bytes().push(byte);
            }
            _ => {
                let more = 1 + self.rng.index(20);
                self.bytes().extend_from_within(..more.min(length));
            }
        }
    }

    fn change(&mut self) {
        match self.rng.below(6) {
            0 => self.any_byte(),
            1 if self.damage.image => self.contents(),
            2 => self.rows(),
            3 => self.not_utf8(),
            _ => self.limited(),
        }
    }

    fn any_byte(&mut self) {
        if !self.bytes().is_empty() {
            let at = self.rng.index(self.damage.of.bytes.len());
            self.bytes()[at] ^= 1 + self.rng.below(255) as u8;
        }
    }

    fn set(&mut self, at: usize, values: &[u8]) {
        let value = self.rng.pick(values);
        if let Some(byte) = self.bytes().get_mut(at) {
            *byte = value;
        }
    }

    /// A byte whose values are limited, or a number. First what there is, then one of that, so that rare bytes are
    /// met as often as texts.
    fn limited(&mut self) {
        let kinds: [fn(&What) -> bool; 7] = [
            |what| matches!(what, What::Text(_)),
            |what| *what == What::SetCount,
            |what| *what == What::OptionByte,
            |what| *what == What::KindByte,
            |what| *what == What::ActionByte,
            |what| *what == What::Flags,
            |what| *what == What::Number,
        ];
        let kind = self.rng.pick(&kinds);
        let Some((at, what)) = self.place(kind) else {
            return;
        };
        let now = self.bytes()[at];
        match what {
            What::Text(most) => self.set(at, &counts(now, most)),
            What::SetCount => self.set(at, &counts(now, SET)),
            What::OptionByte | What::KindByte => self.set(at, &[2, 255, now ^ 1]),
            What::ActionByte => {
                self.set(at, &[0, 18, 255, now.wrapping_add(1), now.wrapping_sub(1)]);
            }
            What::Flags => {
                let bit = self.rng.index(16);
                self.bytes()[at + bit / 8] ^= 1 << (bit % 8);
            }
            What::Number => {
                let any = self.rng.next();
                let value = self.rng.pick(&[0, 1, u64::MAX, any]).to_le_bytes();
                self.bytes()[at..at + 8].copy_from_slice(&value);
            }
        }
    }

    fn place(&mut self, which: impl Fn(&What) -> bool) -> Option<(usize, What)> {
        let width = |what: &What| match what {
            What::Number => 8,
            What::Flags => 2,
            _ => 1,
        };
        let of = &self.damage.of;
        let within = |at: usize, what: &What| at + width(what) <= of.bytes.len();
        let places = of.places.iter().filter(|(at, what)| which(what) && within(*at, what));
        self.some(&places.copied().collect::<Vec<_>>())
    }

    fn some<T: Clone>(&mut self, from: &[T]) -> Option<T> {
        (!from.is_empty()).then(|| self.rng.pick(from))
    }

    /// An offset, a length or a count of an image's contents, or the border of two bodies moved.
    fn contents(&mut self) {
        let entry = self.rng.index(ENTRIES);
        let at = 4 + ENTRY * entry;
        match self.rng.below(4) {
            0 => self.word(at),
            1 => self.word(at + 4),
            2 => {
                let most = if entry == 0 { 1 } else { TABLES[entry - 1] };
                let now = self.bytes()[at + 8];
                self.set(at + 8, &counts(now, most));
            }
            _ if entry + 1 < ENTRIES => {
                self.damage.add(at + 4, 1);
                self.damage.add(at + ENTRY, 1);
                self.damage.add(at + ENTRY + 4, u32::MAX);
            }
            _ => self.damage.add(at + 4, u32::MAX),
        }
    }

    fn word(&mut self, at: usize) {
        let more = self.rng.pick(&[1, u32::MAX, 256, 1 << 16, 1 << 31]);
        self.damage.add(at, more);
    }

    /// Two rows of one table or set change places, or one is there in place of the other.
    fn rows(&mut self) {
        let Some(Rows { ranges, .. }) = self.some_rows(2) else {
            return;
        };
        let first = self.rng.index(ranges.len() - 1);
        let second = first + 1 + self.rng.index(ranges.len() - 1 - first);
        let (first, second) = (&ranges[first], &ranges[second]);
        if first.len() == second.len() && self.rng.one_in(3) {
            self.bytes().copy_within(first.clone(), second.start);
        } else {
            self.damage.swap(first, second);
        }
    }

    fn some_rows(&mut self, least: usize) -> Option<Rows> {
        let rows = self.damage.of.rows.iter().filter(|rows| rows.ranges.len() >= least);
        self.some(&rows.cloned().collect::<Vec<_>>())
    }

    /// The place of a text, its limit and its bytes.
    fn some_text(&mut self) -> Option<(usize, usize, Range<usize>)> {
        let (at, what) = self.place(|what| matches!(what, What::Text(_)))?;
        let What::Text(most) = what else { return None };
        Some((at, most, self.damage.text(at)?))
    }

    fn not_utf8(&mut self) {
        if let Some((_, _, text)) = self.some_text() {
            self.spoil(text);
        }
    }

    /// Lays a sequence at the start, at the end or within a text.
    fn spoil(&mut self, text: Range<usize>) {
        let sequence = self.rng.pick(&SEQUENCES);
        let Some(slack) = text.len().checked_sub(sequence.len()) else {
            return;
        };
        let offset = match self.rng.below(3) {
            0 => 0,
            1 => slack,
            _ => self.rng.index(slack + 1),
        };
        let start = text.start + offset;
        self.bytes()[start..start + sequence.len()].copy_from_slice(sequence);
    }

    /// Several faults at one text: which of them is answered?
    fn one_text(&mut self) {
        let Some((at, most, text)) = self.some_text() else {
            return;
        };
        self.spoil(text.clone());
        if self.rng.one_in(2) {
            self.set(at, &[most as u8, most as u8 + 1, 255]);
        }
        if self.rng.one_in(2) {
            let end = at + 1 + self.rng.index(text.len() + 1);
            self.bytes().truncate(end);
        }
    }

    /// A text or a row that takes another number of bytes; in an image mostly with its contents made to fit.
    fn resize(&mut self) {
        if self.rng.one_in(2) {
            if let Some((at, most, _)) = self.some_text() {
                let text = self.rng.pick(&texts(most));
                self.damage.replace_text(at, &text);
            }
        } else if let Some(rows) = self.some_rows(1) {
            match self.rng.below(3) {
                0 => self.damage.repeat_last(&rows),
                1 => self.damage.drop_last(&rows),
                _ => {
                    let size = self.rng.pick(&[SET, SET + 1]);
                    self.damage.grow_set(&rows, size);
                }
            }
        }
    }
}

/// Values for a byte that counts up to a limit.
fn counts(now: u8, most: usize) -> [u8; 6] {
    let most = most as u8;
    [now.wrapping_add(1), now.wrapping_sub(1), 0, most, most + 1, 255]
}
