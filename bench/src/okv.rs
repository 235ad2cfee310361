//! `apply`, validation and the test of an image beside the Rust, in one run. `okv` gives nanoseconds, `okv count`
//! instructions.
mod calls;
mod counting;
mod states;
mod timing;
mod wire;

use calls::*;
use counting::{measured, Counts};
use okv_publication::*;
use states::{early, late, Case, Name, Size, KEYS, MIXED, NONE, ROWS, SMALL};
use std::hint::black_box;
use timing::{race, repeat};
use wire::{bytes, Reader};

/// Times that the whole is measured: what disturbs one of them seldom disturbs all.
const PASSES: usize = 4;

/// What a call costs the library, the Rust on the same bytes, and the Rust in memory.
#[derive(Default)]
struct Costs {
    okv: f64,
    bytes: f64,
    memory: f64,
    /// The library's, by function, where they are counted.
    functions: Vec<(String, u64)>,
}

impl From<[f64; 3]> for Costs {
    fn from([okv, bytes, memory]: [f64; 3]) -> Self {
        Costs { okv, bytes, memory, functions: vec![] }
    }
}

enum Meter {
    /// Nanoseconds.
    Clock,
    /// Nothing yet: callgrind counts.
    Marks,
    /// Instructions that callgrind counted.
    Counts(Counts),
}

impl Meter {
    fn measure<A, B, C>(
        &mut self,
        okv: impl FnMut() -> A,
        bytes: impl FnMut() -> B,
        memory: impl FnMut() -> C,
    ) -> Costs {
        let mut runs: [&mut dyn FnMut(u32); 3] = [&mut repeat(okv), &mut repeat(bytes), &mut repeat(memory)];
        match self {
            Meter::Clock => Costs::from(race(runs)),
            Meter::Marks => {
                for run in &mut runs {
                    run(2);
                    measured(run);
                }
                Costs::default()
            }
            Meter::Counts(counts) => {
                let functions = [(); 3].map(|()| counts.next());
                let total = |f: &Vec<(String, u64)>| f.iter().map(|(_, n)| *n as f64).sum();
                let [okv, bytes, memory] = functions.each_ref().map(total);
                let [functions, ..] = functions;
                Costs { okv, bytes, memory, functions }
            }
        }
    }
}

fn apply_of(case: &Case, title: &str, lent: &mut Lent, meter: &mut Meter) -> Costs {
    let Case { name, state, request } = case;
    let (image, ask) = (bytes(state), bytes(request));
    let (mut next, mut outcome) = (vec![], vec![]);
    let (status, n, m) = apply(&image, &ask, lent);
    assert_eq!(status, rust_apply(&image, &ask, &mut next, &mut outcome), "{title}, {name}");
    assert!(lent.next[..n] == next && lent.outcome[..m] == outcome, "{title}, {name}: other bytes");
    meter.measure(
        || apply(black_box(&image), black_box(&ask), lent),
        || rust_apply(black_box(&image), black_box(&ask), &mut next, &mut outcome),
        || rust_step(black_box(state), black_box(request)),
    )
}

fn validate_of(state: &PublicationAuthorityState, token: &SnapshotLeaseToken, meter: &mut Meter) -> Costs {
    let (image, shown) = (bytes(state), bytes(token));
    assert!(validate(&image, &shown) == 0 && rust_validate(&image, &shown));
    meter.measure(
        || validate(black_box(&image), black_box(&shown)),
        || rust_validate(black_box(&image), black_box(&shown)),
        || black_box(state).validate_active_snapshot_lease(black_box(token)),
    )
}

/// The Rust has no such call: beside it stand the decoding and a clone.
fn test_of(state: &PublicationAuthorityState, meter: &mut Meter) -> Costs {
    let image = bytes(state);
    assert!(test(&image) == 0 && test(&image[..image.len() - 1]) == 40);
    meter.measure(
        || test(black_box(&image)),
        || Reader(black_box(&image)).get::<PublicationAuthorityState>(),
        || black_box(state).clone(),
    )
}

/// Every call on one image.
struct Column {
    title: &'static str,
    bytes: usize,
    rows: Vec<(&'static str, Costs)>,
}

impl Column {
    fn measure(title: &'static str, name: Name, size: Size, lent: &mut Lent, meter: &mut Meter) -> Column {
        let state = states::state(name, size);
        let mut rows = vec![];
        for case in states::cases(&state, name, size) {
            rows.push((case.name, apply_of(&case, title, lent, meter)));
        }
        if let Some(token) = states::middle(state.leases.values()) {
            rows.push(("validate", validate_of(&state, token, meter)));
        }
        rows.push(("test", test_of(&state, meter)));
        Column { title, bytes: bytes(&state).len(), rows }
    }

    fn all(lent: &mut Lent, meter: &mut Meter) -> [Column; 12] {
        [
            ("default", early as Name, NONE),
            ("small", early, SMALL),
            ("mixed", early, MIXED),
            ("keys", early, KEYS),
            ("rows", early, ROWS),
            ("mixed, alike", late, MIXED),
            ("keys, alike", late, KEYS),
            ("rows, alike", late, ROWS),
            ("keys, 1/4", early, KEYS.part(4)),
            ("keys, 1/2", early, KEYS.part(2)),
            ("rows, 1/4", early, ROWS.part(4)),
            ("rows, 1/2", early, ROWS.part(2)),
        ]
        .map(|(title, name, size)| Column::measure(title, name, size, lent, meter))
    }

    /// Clock steps that end all of so many leases.
    fn ends(lent: &mut Lent, meter: &mut Meter) -> [Column; 6] {
        [
            ("1 lease", early as Name, 1),
            ("4 leases", early, 4),
            ("16 leases", early, 16),
            ("64 leases", early, 64),
            ("16, alike", late, 16),
            ("64, alike", late, 64),
        ]
        .map(|(title, name, leases)| {
            let state = states::state(name, Size { leases, ..SMALL });
            let rows = states::ends(&state).map(|case| (case.name, apply_of(&case, title, lent, meter)));
            Column { title, bytes: bytes(&state).len(), rows: rows.into() }
        })
    }

    fn take_less(&mut self, again: &Column) {
        for ((_, costs), (_, others)) in self.rows.iter_mut().zip(&again.rows) {
            costs.okv = costs.okv.min(others.okv);
            costs.bytes = costs.bytes.min(others.bytes);
            costs.memory = costs.memory.min(others.memory);
        }
    }
}

fn table(heading: &str, columns: &[&Column], cell: impl Fn(&Column, &Costs) -> String) {
    println!("\n{heading}\n");
    let titles = columns.iter().map(|c| format!(" {} |", c.title));
    println!("| |{}", titles.collect::<String>());
    println!("|---|{}", "---:|".repeat(columns.len()));
    let sizes = columns.iter().map(|c| format!(" {} |", c.bytes));
    println!("| bytes |{}", sizes.collect::<String>());
    for (row, _) in &columns[columns.len() - 1].rows {
        print!("| {row} |");
        for c in columns {
            match c.rows.iter().find(|(name, _)| name == row) {
                Some((_, costs)) => print!(" {} |", cell(c, costs)),
                None => print!(" |"),
            }
        }
        println!();
    }
}

/// What the calls cost, alone and beside the Rust.
fn beside(which: &str, unit: &str, columns: &[&Column]) {
    table(&format!("{which}{unit} a call."), columns, |_, c| format!("{:.0}", c.okv));
    table(&format!("{which}Ratio to the Rust on the same bytes: decode, apply, encode."), columns, |_, c| {
        format!("{:.2}", c.okv / c.bytes)
    });
    table(&format!("{which}Ratio to the Rust on its state in memory: clone, apply."), columns, |_, c| {
        format!("{:.2}", c.okv / c.memory)
    });
}

/// Where the time goes, of the calls that take more than half of the Rust's.
fn dear(columns: &[&Column]) {
    println!("\nInstructions by function, where the ratio to the Rust on the same bytes is over 0.5.\n");
    println!("| | | ratio | instructions | of these |\n|---|---|---:|---:|---|");
    for c in columns {
        for (row, costs) in &c.rows {
            let ratio = costs.okv / costs.bytes;
            if ratio > 0.5 {
                let most = costs.functions.iter().take(5).map(|(f, n)| format!("{f} {n}"));
                println!(
                    "| {} | {row} | {ratio:.2} | {} | {} |",
                    c.title,
                    costs.okv,
                    most.collect::<Vec<_>>().join(", ")
                );
            }
        }
    }
}

fn main() {
    let mode = std::env::args().nth(1);
    let (mut meter, passes, unit) = match mode.as_deref() {
        Some("count") => (Meter::Counts(Counts::of("marks")), 1, "Instructions"),
        Some("marks") => (Meter::Marks, 1, ""),
        _ => (Meter::Clock, PASSES, "Nanoseconds"),
    };
    let lent = &mut Lent { next: [0; 65535], outcome: [0; 8192] };
    let mut columns = Column::all(lent, &mut meter);
    let mut ends = Column::ends(lent, &mut meter);
    for _ in 1..passes {
        let again = Column::all(lent, &mut meter);
        columns.iter_mut().zip(&again).for_each(|(column, other)| column.take_less(other));
        let again = Column::ends(lent, &mut meter);
        ends.iter_mut().zip(&again).for_each(|(column, other)| column.take_less(other));
    }
    if matches!(meter, Meter::Marks) {
        return;
    }
    let [kinds @ .., keys4, keys2, rows4, rows2] = &columns;
    let [_, _, _, keys, rows, ..] = kinds;
    let kinds: Vec<&Column> = kinds.iter().collect();
    let ends: Vec<&Column> = ends.iter().collect();
    let sizes = [keys4, keys2, keys, rows4, rows2, rows];
    beside("", unit, &kinds);
    beside("All leases end, and the Rust puts its list in the same order. ", unit, &ends);
    table(&format!("{unit} a byte of the image, as it grows."), &sizes, |column, c| {
        format!("{:.3}", c.okv / column.bytes as f64)
    });
    if matches!(meter, Meter::Counts(_)) {
        dear(&[kinds, ends].concat());
    }
}
