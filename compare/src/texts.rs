//! Request K2 of document 02: the order of two texts, which is Rust's own of bytes, and the steps that it takes to tell,
//! counted from the words of the request; and pairs of texts for both.
use crate::rng::Rng;
use std::cmp::Ordering;

/// What `text_compare` must answer: 0 where the first comes first, 1 where they are equal, 2 where the second does; and
/// the steps.
pub fn answer(a: &[u8], b: &[u8]) -> (u8, usize) {
    let order = match a.cmp(b) {
        Ordering::Less => 0,
        Ordering::Equal => 1,
        Ordering::Greater => 2,
    };
    (order, steps(a, b))
}

/// One for each eight bytes where eight are left on both sides, or else for each byte, up to and with the first that
/// differ.
fn steps(mut a: &[u8], mut b: &[u8]) -> usize {
    let mut count = 0;
    while !a.is_empty() && !b.is_empty() {
        let taken = if a.len() >= 8 && b.len() >= 8 { 8 } else { 1 };
        count += 1;
        if a[..taken] != b[..taken] {
            break;
        }
        (a, b) = (&a[taken..], &b[taken..]);
    }
    count
}

/// Where two texts first differ, as they are compared.
#[derive(Clone, Copy, Debug, Eq, Ord, PartialEq, PartialOrd)]
pub enum Place {
    /// At this byte of eight that both have.
    Word(usize),
    /// At this byte after the last eight that both have.
    Rest(usize),
}

pub fn every_place() -> impl Iterator<Item = Place> {
    (0..8).map(Place::Word).chain((0..7).map(Place::Rest))
}

/// How many bytes are the same at the head of two texts, and where the first difference then is; none where one text
/// begins with the other.
pub fn first_difference(a: &[u8], b: &[u8]) -> Option<(usize, Place)> {
    let same = a.iter().zip(b).position(|(x, y)| x != y)?;
    let words = a.len().min(b.len()) / 8 * 8;
    let place = if same < words { Place::Word(same % 8) } else { Place::Rest(same - words) };
    Some((same, place))
}

/// What a pair of texts can be.
#[derive(Clone, Copy, Debug, Eq, Ord, PartialEq, PartialOrd)]
pub enum Kind {
    Order(Ordering),
    /// The first difference in the first eight bytes, and after them.
    Early(Place),
    Late(Place),
    /// No difference up to the end of the shorter text, which is whole words or is not.
    Prefix(Ordering, bool),
    Steps(usize),
    /// The bytes that differ are a small one and one from 0x80 on, so that they have another order as signed numbers.
    Signs(Ordering),
    /// The words that differ have another order as little-endian numbers.
    Turned(Ordering),
}

/// The most steps of which each number must come.
const STEPS: usize = 23;

pub fn every_kind() -> Vec<Kind> {
    use Ordering::*;
    let mut kinds: Vec<Kind> = (0..=STEPS).map(Kind::Steps).collect();
    for place in every_place() {
        kinds.extend([Kind::Early(place), Kind::Late(place)]);
    }
    for order in [Less, Equal, Greater] {
        kinds.extend([Kind::Order(order), Kind::Prefix(order, true), Kind::Prefix(order, false)]);
    }
    for order in [Less, Greater] {
        kinds.extend([Kind::Signs(order), Kind::Turned(order)]);
    }
    kinds
}

pub fn kinds(a: &[u8], b: &[u8]) -> Vec<Kind> {
    let order = a.cmp(b);
    let mut kinds = vec![Kind::Order(order), Kind::Steps(steps(a, b))];
    let Some((same, place)) = first_difference(a, b) else {
        kinds.push(Kind::Prefix(order, a.len().min(b.len()) % 8 == 0));
        return kinds;
    };
    kinds.push(if same < 8 { Kind::Early(place) } else { Kind::Late(place) });
    if (a[same] < 0x80) != (b[same] < 0x80) {
        kinds.push(Kind::Signs(order));
    }
    if let Place::Word(byte) = place {
        let [x, y] = [a, b].map(|text| &text[same - byte..same - byte + 8]);
        if x.iter().rev().cmp(y.iter().rev()) != order {
            kinds.push(Kind::Turned(order));
        }
    }
    kinds
}

/// Two texts of fewer than 320 bytes that begin with the same bytes, mostly many.
pub fn pair(rng: &mut Rng) -> [Vec<u8>; 2] {
    let most = rng.pick(&[24, 140, 300]);
    let length = rng.index(most + 1);
    let head = bytes(rng, length);
    let (more, other) = (rng.index(20), rng.index(20));
    let mut ends = [bytes(rng, more), bytes(rng, other)];
    match rng.below(8) {
        0 => ends[1] = ends[0].clone(),
        1 => ends[0].clear(),
        2 => ends[1].clear(),
        _ => {}
    }
    ends.map(|end| [&head[..], &end].concat())
}

/// Bytes of any value, mostly from both ends and both sides of 0x80.
fn bytes(rng: &mut Rng, length: usize) -> Vec<u8> {
    let byte = |_| {
        let any = rng.next() as u8;
        rng.pick(&[0x00, 0x01, 0x7F, 0x80, 0xFE, 0xFF, any, any])
    };
    (0..length).map(byte).collect()
}
