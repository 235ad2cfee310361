//! What the text layer's functions cost beside Rust's own, in one run, in nanoseconds: `compare` by the call with its steps,
//! the others by the byte.
mod timing;

use std::hint::black_box;
use timing::{race, repeat};

include!(env!("TEXT_RS"));

#[link(name = "text_before", kind = "static")]
extern "C" {
    /// Of an older library. One from before steps were counted leaves the last argument alone.
    fn before_text_compare(a: *const u8, a_size: usize, b: *const u8, b_size: usize, steps: *mut usize) -> u8;
}

fn is_utf8(s: &[u8]) -> bool {
    unsafe { text_is_utf8(s.as_ptr(), s.len()) }
}

fn same(a: &[u8], b: &[u8]) -> bool {
    unsafe { text_same(a.as_ptr(), a.len(), b.as_ptr(), b.len()) }
}

fn valid_sha256(s: &[u8]) -> bool {
    unsafe { text_valid_sha256(s.as_ptr(), s.len()) }
}

/// The order, and the steps, which `compare/run` holds to a plain count.
fn compare(a: &[u8], b: &[u8]) -> (u8, usize) {
    let mut steps = usize::MAX;
    let order = unsafe { text_compare(a.as_ptr(), a.len(), b.as_ptr(), b.len(), &mut steps) };
    (order, steps)
}

fn before(a: &[u8], b: &[u8]) -> (u8, usize) {
    let mut steps = usize::MAX;
    let order = unsafe { before_text_compare(a.as_ptr(), a.len(), b.as_ptr(), b.len(), &mut steps) };
    (order, steps)
}

/// The test of the publication crate, as it stands there.
fn rust_valid_sha256(value: &str) -> bool {
    value.len() == 64 && value.as_bytes().iter().all(|byte| byte.is_ascii_digit() || (b'a'..=b'f').contains(byte))
}

fn row<A, B>(name: &str, bytes: usize, ours: impl Fn() -> A, rust: impl Fn() -> B) {
    let [ours, rust] = race([&mut repeat(ours), &mut repeat(rust)]);
    let per = bytes as f64;
    println!("| {name} | {bytes} | {:.3} | {:.3} | {:.2} |", ours / per, rust / per, ours / rust);
}

/// What each function costs on two equal texts.
fn measure(kind: &str, text: &[u8]) {
    let n = text.len();
    let other = text.to_vec();
    assert_eq!(is_utf8(text), std::str::from_utf8(text).is_ok());
    assert!(same(text, &other));
    row(&format!("is_utf8, {kind}"), n, || is_utf8(black_box(text)), || std::str::from_utf8(black_box(text)).is_ok());
    row(
        &format!("same, {kind}"),
        n,
        || same(black_box(text), black_box(&other)),
        || black_box(text) == black_box(&other[..]),
    );
}

type Pair = (Vec<u8>, Vec<u8>);

/// All pairs one after another.
fn each<'a, A>(pairs: &'a [Pair], compare: impl Fn(&[u8], &[u8]) -> A + 'a) -> impl FnMut() + 'a {
    move || {
        for (a, b) in pairs {
            black_box(compare(black_box(a), black_box(b)));
        }
    }
}

/// What compare costs on these pairs, in the mean.
fn compare_row(name: &str, pairs: &[Pair]) {
    for (a, b) in pairs {
        for order in [compare(a, b).0, before(a, b).0] {
            assert_eq!(i32::from(order) - 1, a.cmp(b) as i32, "order of {a:?} and {b:?}");
        }
    }
    let mean = |sum: f64| sum / pairs.len() as f64;
    let steps = mean(pairs.iter().map(|(a, b)| compare(a, b).1 as f64).sum());
    let times = race([
        &mut repeat(each(pairs, compare)),
        &mut repeat(each(pairs, before)),
        &mut repeat(each(pairs, |a, b| a.cmp(b))),
    ]);
    let bytes = pairs[0].0.len();
    let [ours, before, rust] = times.map(mean);
    let ratios = format!("{:.2} | {:.2}", ours / before, ours / rust);
    println!("| {name} | {bytes} | {steps} | {ours:.2} | {before:.2} | {rust:.2} | {ratios} |");
}

fn ascii(n: usize) -> Vec<u8> {
    (0..n).map(|i| b'a' + (i % 26) as u8).collect()
}

/// As many bytes of this text as are no more than n and cut no char: one that is cut would end the test of UTF-8 early.
fn mixed(n: usize) -> Vec<u8> {
    let mut text: Vec<u8> = "bücher €10, 東京 𐍈 plain words ".bytes().cycle().take(n).collect();
    let whole = std::str::from_utf8(&text).map_or_else(|e| e.valid_up_to(), |s| s.len());
    text.truncate(whole);
    text
}

fn equal(text: Vec<u8>) -> Pair {
    (text.clone(), text)
}

/// Two texts of n bytes that differ in one, counted from 1.
fn differing(n: usize, byte: usize) -> Pair {
    let (a, mut b) = equal(ascii(n));
    b[byte - 1] += 1;
    (a, b)
}

const LENGTHS: [usize; 4] = [16, 64, 128, 1024];

fn main() {
    println!("\nNanoseconds a byte of equal texts.\n");
    println!("| Function | Bytes | Ours | Rust's | Ratio |\n|---|---:|---:|---:|---:|");
    for n in LENGTHS {
        measure("ASCII", &ascii(n));
        measure("mixed", &mixed(n));
    }
    let hash = "0123456789abcdef".repeat(4);
    row("valid_sha256", 64, || valid_sha256(black_box(hash.as_bytes())), || rust_valid_sha256(black_box(&hash)));

    println!("\nNanoseconds a call of compare.\n");
    println!("| Texts | Bytes | Steps | Ours | Before | Rust's | Ours / before | Ours / Rust's |");
    println!("|---|---:|---:|---:|---:|---:|---:|---:|");
    for n in LENGTHS {
        compare_row("equal", &[equal(ascii(n))]);
        compare_row("first byte differs", &[differing(n, 1)]);
        if n > 100 {
            compare_row("byte 100 differs", &[differing(n, 100)]);
        }
        compare_row("last byte differs", &[differing(n, n)]);
    }
    compare_row("equal, mixed", &[equal(mixed(1024))]);
    let late: Vec<Pair> = (65..=128).map(|byte| differing(128, byte)).collect();
    compare_row("each byte from 65 to 128 differs in turn", &late);
    for n in 1..16 {
        compare_row("equal", &[equal(ascii(n))]);
    }
}
