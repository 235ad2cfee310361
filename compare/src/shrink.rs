//! Smaller inputs that still show the same.
use serde::de::DeserializeOwned;
use serde::Serialize;
use serde_json::Value;

/// Changes that are tried before a value is taken as small enough.
const TRIES: usize = 40_000;

/// Leaves out what a value can do without.
pub fn value<T: Serialize + DeserializeOwned>(start: T, keeps: impl Fn(&T) -> bool) -> T {
    let first = serde_json::to_value(&start).expect("a value of the Rust");
    let read = |value: &Value| serde_json::from_value::<T>(value.clone()).ok();
    let last = least(first, lessen, |value| read(value).is_some_and(|value| keeps(&value)));
    read(&last).unwrap_or(start)
}

/// Leaves out bytes, and makes those that stay 0.
pub fn bytes(start: Vec<u8>, keeps: impl Fn(&Vec<u8>) -> bool) -> Vec<u8> {
    least(start, lessen_bytes, keeps)
}

/// Leaves out parts of a list, each whole.
pub fn list<T: Clone>(start: Vec<T>, keeps: impl Fn(&Vec<T>) -> bool) -> Vec<T> {
    let without = |list: &mut Vec<T>, n: usize| {
        n < list.len() && {
            list.remove(n);
            true
        }
    };
    least(start, without, keeps)
}

/// Tries change after change, until none is left that keeps what is to be kept.
fn least<T: Clone>(mut value: T, change: impl Fn(&mut T, usize) -> bool, keeps: impl Fn(&T) -> bool) -> T {
    let (mut n, mut kept) = (0, false);
    for _ in 0..TRIES {
        let mut less = value.clone();
        if !change(&mut less, n) {
            if !kept {
                break;
            }
            (n, kept) = (0, false);
        } else if keeps(&less) {
            (value, kept) = (less, true);
        } else {
            n += 1;
        }
    }
    value
}

/// Makes the nth change that leaves less of a value; false where there are not so many.
fn lessen(value: &mut Value, mut n: usize) -> bool {
    fn visit(value: &mut Value, n: &mut usize) -> bool {
        for less in lesser(value) {
            if *n == 0 {
                *value = less;
                return true;
            }
            *n -= 1;
        }
        match value {
            Value::Array(items) => {
                if *n < items.len() {
                    items.remove(*n);
                    return true;
                }
                *n -= items.len();
                items.iter_mut().any(|item| visit(item, n))
            }
            Value::Object(members) => {
                if let Some(name) = members.keys().nth(*n).cloned() {
                    members.remove(&name);
                    return true;
                }
                *n -= members.len();
                members.values_mut().any(|member| visit(member, n))
            }
            _ => false,
        }
    }
    visit(value, &mut n)
}

fn lesser(value: &Value) -> Vec<Value> {
    match value {
        Value::Bool(true) => vec![false.into()],
        Value::Number(n) if n.as_u64() == Some(1) => vec![0.into()],
        Value::Number(n) if n.as_u64() != Some(0) => vec![Value::Null, 0.into(), 1.into()],
        Value::String(text) if !text.is_empty() => {
            let half: String = text.chars().take(text.chars().count() / 2).collect();
            let mut less = vec![Value::Null, "".into()];
            if !half.is_empty() {
                less.push(half.into());
            }
            less
        }
        Value::Array(items) if !items.is_empty() => vec![Value::Array(vec![])],
        Value::Object(members) if !members.is_empty() => {
            vec![Value::Null, Value::Object(serde_json::Map::new())]
        }
        _ => vec![],
    }
}

/// The nth change of bytes: halves, quarters and so on left out, then single bytes made 0.
fn lessen_bytes(bytes: &mut Vec<u8>, mut n: usize) -> bool {
    let mut size = bytes.len().div_ceil(2);
    while size > 0 {
        let parts = bytes.len() / size;
        if n < parts {
            bytes.drain(n * size..(n + 1) * size);
            return true;
        }
        n -= parts;
        size /= 2;
    }
    match bytes.iter_mut().filter(|byte| **byte != 0).nth(n) {
        Some(byte) => {
            *byte = 0;
            true
        }
        None => false,
    }
}
