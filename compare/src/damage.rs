//! What can be done to the bytes of an image, a request or a token. What they then are is for the decoder to say.
use crate::encode::{Encoded, Rows, What};
use crate::limits::*;
use std::ops::Range;

/// Bytes that are not UTF-8 by RFC 3629, and some at its limits that are.
#[rustfmt::skip]
pub const SEQUENCES: [&[u8]; 20] = [
    b"\x80", b"\xBF", b"\xC0\x80", b"\xC1\xBF", b"\xC2\x7F", b"\xE0\x80\x80", b"\xE0\x9F\xBF",
    b"\xED\xA0\x80", b"\xED\xBF\xBF", b"\xF0\x8F\xBF\xBF", b"\xF4\x90\x80\x80", b"\xF5\x80\x80\x80",
    b"\xFF", b"\xE2\x82", b"\xC2\x80", b"\xDF\xBF", b"\xE0\xA0\x80", b"\xED\x9F\xBF",
    b"\xF0\x90\x80\x80", b"\xF4\x8F\xBF\xBF",
];

/// A copy that is being damaged.
pub struct Damage {
    pub of: Encoded,
    pub image: bool,
    /// Whether the contents of an image are made to fit what takes more or fewer bytes.
    pub fit: bool,
}

/// An image with two rows in each other's place.
pub fn exchanged(image: &Encoded, first: &Range<usize>, second: &Range<usize>) -> Vec<u8> {
    let mut damage = Damage { of: image.clone(), image: true, fit: true };
    damage.swap(first, second);
    damage.of.bytes
}

/// Shows every cut, every byte changed, and every text, set and table with what its limit and its order forbid.
pub fn every(of: &Encoded, image: bool, mut see: impl FnMut(&[u8])) {
    for at in 0..of.bytes.len() {
        see(&of.bytes[..at]);
        for change in [0x01, 0x02, 0x80, 0xFF] {
            let mut bytes = of.bytes.clone();
            bytes[at] ^= change;
            see(&bytes);
        }
    }
    let mut changed = |change: &dyn Fn(&mut Damage)| {
        let mut copy = Damage { of: of.clone(), image, fit: true };
        change(&mut copy);
        see(&copy.of.bytes);
    };
    for (at, what) in &of.places {
        let What::Text(most) = what else { continue };
        for text in texts(*most) {
            changed(&|copy| copy.replace_text(*at, &text));
        }
    }
    for rows in &of.rows {
        for size in [SET, SET + 1] {
            changed(&|copy| copy.grow_set(rows, size));
        }
        for pair in rows.ranges.windows(2) {
            changed(&|copy| copy.swap(&pair[0], &pair[1]));
        }
        changed(&|copy| copy.repeat_last(rows));
        changed(&|copy| copy.drop_last(rows));
    }
}

/// Texts at their limit, past it, below all others so that their order is wrong, and not UTF-8.
pub fn texts(most: usize) -> Vec<Vec<u8>> {
    vec![
        b"m".repeat(most),
        b"m".repeat(most + 1),
        vec![1],
        vec![1, 0xFF],
        [&b"m".repeat(most - 1)[..], &[0xC3]].concat(),
        vec![1; most + 1],
        vec![0xFF; most + 1],
        Vec::new(),
    ]
}

impl Damage {
    /// The bytes of the text whose length byte stands here, where it still is one.
    pub fn text(&self, at: usize) -> Option<Range<usize>> {
        let length = *self.of.bytes.get(at)? as usize;
        let text = at + 1..at + 1 + length;
        (text.end <= self.of.bytes.len()).then_some(text)
    }

    pub fn replace_text(&mut self, at: usize, text: &[u8]) {
        if let Some(old) = self.text(at) {
            let with = [&[text.len() as u8], text].concat();
            self.splice(at..old.end, &with);
        }
    }

    /// The second row before the first.
    pub fn swap(&mut self, first: &Range<usize>, second: &Range<usize>) {
        let bytes = &self.of.bytes;
        let between = first.end..second.start;
        let swapped = [&bytes[second.clone()], &bytes[between], &bytes[first.clone()]].concat();
        self.of.bytes[first.start..second.end].copy_from_slice(&swapped);
    }

    /// The last row a second time after itself, and counted.
    pub fn repeat_last(&mut self, rows: &Rows) {
        if let Some(last) = rows.ranges.last() {
            let row = self.of.bytes[last.clone()].to_vec();
            self.of.bytes[rows.count] = self.of.bytes[rows.count].wrapping_add(1);
            self.splice(last.end..last.end, &row);
        }
    }

    /// One row less, also in the count.
    pub fn drop_last(&mut self, rows: &Rows) {
        if let Some(last) = rows.ranges.last() {
            self.of.bytes[rows.count] = self.of.bytes[rows.count].wrapping_sub(1);
            self.splice(last.clone(), &[]);
        }
    }

    /// A set with so many members, the new ones above all others. Tables are left alone.
    pub fn grow_set(&mut self, rows: &Rows, size: usize) {
        if self.image && rows.count < BODIES {
            return;
        }
        let end = rows.ranges.last().map_or(rows.count + 1, |last| last.end);
        let mut more = Vec::new();
        for n in rows.ranges.len()..size {
            let member = format!("\u{10FFFF}\u{10FFFF}{n:0>2}");
            more.push(member.len() as u8);
            more.extend_from_slice(member.as_bytes());
        }
        self.of.bytes[rows.count] = size as u8;
        self.splice(end..end, &more);
    }

    /// Puts other bytes in place of these and moves what stands after them.
    pub fn splice(&mut self, range: Range<usize>, with: &[u8]) {
        if self.image && self.fit {
            // what is put at the end of a row belongs to the body of that row
            let byte = range.start - usize::from(range.is_empty());
            self.fit_contents(byte, with.len(), range.len());
        }
        let gone = |at: usize| range.start < at && at < range.end;
        self.of.places.retain(|(at, _)| !gone(*at));
        self.of.rows.retain(|rows| !gone(rows.count));
        let moved = |at: usize| {
            if at >= range.end {
                at + with.len() - range.len()
            } else {
                at
            }
        };
        for (at, _) in &mut self.of.places {
            *at = moved(*at);
        }
        for rows in &mut self.of.rows {
            rows.count = moved(rows.count);
            for row in &mut rows.ranges {
                *row = moved(row.start)..moved(row.end);
            }
        }
        self.of.bytes.splice(range, with.iter().copied());
    }

    /// Gives the body around a byte so many bytes more and less, and moves the bodies after it.
    fn fit_contents(&mut self, byte: usize, more: usize, less: usize) {
        let change = (more as u32).wrapping_sub(less as u32);
        let mut inside = false;
        for at in (4..BODIES).step_by(ENTRY) {
            let start = self.number(at);
            if inside {
                self.add(at, change);
            } else if (start..start + self.number(at + 4)).contains(&byte) {
                inside = true;
                self.add(at + 4, change);
            }
        }
    }

    fn number(&self, at: usize) -> usize {
        let bytes = &self.of.bytes[at..at + 4];
        u32::from_le_bytes(bytes.try_into().expect("four bytes")) as usize
    }

    pub fn add(&mut self, at: usize, more: u32) {
        let value = (self.number(at) as u32).wrapping_add(more);
        self.of.bytes[at..at + 4].copy_from_slice(&value.to_le_bytes());
    }
}
