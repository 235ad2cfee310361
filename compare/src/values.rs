//! Random texts, numbers and records from small pools, so that records of different tables meet.
use crate::limits::*;
use crate::rng::Rng;
use okv_publication::*;
use std::collections::{BTreeMap, BTreeSet};

/// How long texts are.
#[derive(Clone, Copy, Debug, PartialEq)]
pub enum Texts {
    Short,
    /// Exactly as long as their limit, with a long common beginning.
    Full,
    /// Of any length up to the limit.
    Mixed,
    /// The same up to the last bytes that the limit allows: keys share a hundred.
    Alike,
}

/// How many texts there are to choose from, and how often a value does not fit: one time in `odds`.
#[derive(Clone, Copy, Debug)]
pub struct Shape {
    pub ids: u64,
    pub texts: Texts,
    pub odds: u64,
}

pub struct Gen {
    pub rng: Rng,
    pub shape: Shape,
}

const NAMESPACES: [&str; 4] = ["", "out/", "out/a/", "new/"];

impl Gen {
    pub fn new(seed: u64, shape: Shape) -> Self {
        Gen { rng: Rng::new(seed), shape }
    }

    /// Whether to give what does not fit.
    pub fn odd(&mut self) -> bool {
        self.rng.one_in(self.shape.odds)
    }

    /// The nth text of the pool. The stems make order by bytes differ from order by length and from order by signed
    /// bytes.
    fn nth(&self, n: u64, most: usize) -> String {
        let stem = ["i", "é", "ii", "\u{10FFFF}", "a"][(n % 5) as usize];
        let text = format!("{stem}{n}");
        let length = match self.shape.texts {
            Texts::Short => 0,
            Texts::Full => most,
            Texts::Mixed => (n as usize * 37) % (most + 1),
            Texts::Alike => return alike(n as usize, most),
        };
        "m".repeat(length.saturating_sub(text.len())) + &text
    }

    pub fn id(&mut self) -> String {
        if self.rng.one_in(self.shape.odds * 6) {
            return String::new();
        }
        let n = self.rng.below(self.shape.ids);
        self.nth(n, TEXT)
    }

    pub fn key(&mut self) -> String {
        if self.rng.one_in(self.shape.odds * 8) {
            return String::new();
        }
        let n = self.rng.below(self.shape.ids * 2);
        let namespace = NAMESPACES[(n % 4) as usize];
        namespace.to_owned() + &self.nth(n, KEY - namespace.len())
    }

    /// An id or key that is mostly not in the table.
    pub fn fresh<T>(&mut self, table: &BTreeMap<String, T>, text: impl Fn(&mut Self) -> String) -> String {
        let mut id = text(self);
        for _ in 0..4 {
            if !id.is_empty() && !table.contains_key(&id) || self.odd() {
                break;
            }
            id = text(self);
        }
        id
    }

    pub fn namespace(&mut self) -> String {
        if self.odd() {
            return self.rng.pick(&["", "x", "out"]).to_owned();
        }
        match self.rng.below(3) {
            0 => self.rng.pick(&NAMESPACES[1..]).to_owned(),
            _ => {
                let n = self.rng.below(self.shape.ids);
                self.nth(n, KEY - 1) + "/"
            }
        }
    }

    pub fn hash(&mut self) -> String {
        if self.odd() {
            return match self.rng.below(4) {
                0 => String::new(),
                1 => "a".repeat(63),
                2 => "A".to_owned() + &"a".repeat(63),
                _ => "a".repeat(63) + "g",
            };
        }
        self.rng.pick(&["a", "0", "9", "f"]).repeat(64)
    }

    pub fn reference(&mut self) -> ObjectReference {
        ObjectReference {
            kind: if self.odd() { ObjectKind::Data } else { ObjectKind::Manifest },
            key: self.key(),
            length: self.rng.below(3),
            sha256: self.hash(),
        }
    }

    /// Keys, mostly with this one among them.
    pub fn keys(&mut self, with: &str) -> BTreeSet<String> {
        let most = if self.odd() { SET as u64 } else { 4 };
        let mut keys: BTreeSet<String> = (0..self.rng.below(most)).map(|_| self.key()).collect();
        if !self.odd() {
            keys.insert(with.to_owned());
        }
        keys
    }

    pub fn closure(&mut self) -> SnapshotClosure {
        let manifest = self.reference();
        let object_keys = self.keys(&manifest.key);
        SnapshotClosure { manifest, object_keys }
    }

    pub fn identity(&mut self) -> ObjectIdentity {
        ObjectIdentity {
            revision: RevisionToken { e_tag: self.maybe_text(), version: self.maybe_text() },
            length: self.rng.below(3),
            sha256: self.hash(),
        }
    }

    pub fn maybe_text(&mut self) -> Option<String> {
        match self.rng.below(3) {
            0 => None,
            1 => Some(String::new()),
            _ => Some(self.id()),
        }
    }

    pub fn position(&mut self) -> AuthorityPosition {
        AuthorityPosition { term: self.rng.below(3), index: self.number() }
    }

    /// The generation that owns a record.
    pub fn generation(&mut self) -> u64 {
        if self.odd() {
            return self.number();
        }
        1 + self.rng.below(2)
    }

    /// A small number, and now and then one at either end.
    pub fn number(&mut self) -> u64 {
        if self.odd() {
            return match self.rng.below(4) {
                0 => 0,
                1 => u64::MAX,
                2 => u64::MAX - 1,
                _ => self.rng.next(),
            };
        }
        1 + self.rng.below(9)
    }

    /// This number, or where it is not to fit one beside it or at either end.
    pub fn near(&mut self, n: u64) -> u64 {
        if !self.odd() {
            return n;
        }
        match self.rng.below(5) {
            0 | 1 => n.saturating_sub(1),
            2 | 3 => n.saturating_add(1),
            _ => self.number(),
        }
    }

    /// From this number up to so many more.
    pub fn from(&mut self, n: u64, more: u64) -> u64 {
        let step = self.rng.below(more);
        self.near(n.saturating_add(step))
    }
}

/// How many of the last bytes that a limit allows can differ.
const UNLIKE: usize = 28;

/// A text that at one place has a char below or above that of the others, after which its bytes say the contrary; or that
/// ends there. Divided by eight their lengths leave each remainder.
fn alike(n: usize, most: usize) -> String {
    let unlike = ["", "a", "i", "é", "z", "\u{10FFFF}"][n / 25 % 6];
    let text = "m".repeat(most - UNLIKE + n % 25) + unlike;
    let contrary = match unlike {
        "" => "",
        "a" | "i" => "z",
        _ => "a",
    };
    let more = (most - n % 16).saturating_sub(text.len());
    text + &contrary.repeat(more)
}

/// The longest beginning of a text within a limit.
pub fn clip(mut text: String, most: usize) -> String {
    while text.len() > most {
        text.pop();
    }
    text
}
