//! A data file for a program that calls `apply`, `validate_active_snapshot_lease` and `test_image` and holds their
//! answers to those of the Rust, as document 02 changes them: some hundreds of calls that together have every answer
//! there is.
//!
//! `stdin` is a sequence of cases, numbers little-endian of 4 bytes, each after a byte that says what it is:
//!
//! - 0 load: length and bytes of the image that stands from here;
//! - 1 apply: length and bytes of the request, room for the image, room for the outcome; then what is expected: the
//!   status, length and bytes of the next image, length and bytes of the outcome, both lengths 0 at a refusal. At
//!   status 0 the next image stands from here;
//! - 2 validate: length and bytes of the token, and the number expected;
//! - 3 test: the number expected.
//!
//! `stdout` has a line for each case, its number from 1, what it is, and the answer; and `same` with their number.
//! An image and its room have at most 65,536 bytes, a request or token 8,192, an outcome and its room 16,384.
use crate::actions::{plain, Flags, ACTIONS};
use crate::counts::{all_came, every_status, faults_of, grown_by, Counts, Input, ALIKE_BYTES};
use crate::damage::exchanged;
use crate::decode::{self, Fault, Request};
use crate::expiry::NEIGHBOURS;
use crate::limits::*;
use crate::oracle::{self, Answer, Transition};
use crate::reserved::{self, flag_sets, Kind, Place::*, ACQUIRE, RELEASE, RENEW};
use crate::states::{fillings, reservations, Fill, ALIKE};
use crate::texts::{every_place, first_difference, Place};
use crate::values::{Gen, Shape, Texts};
use crate::{aim, encode, shrink};
use okv_publication::*;
use std::fmt::Write;
use std::path::Path;

const ROOM: usize = 65_536;
const OUTCOME_ROOM: usize = 16_384;
const SMALL: Shape = Shape { ids: 3, texts: Texts::Short, odds: 10 };
/// Steps of the history, and how many histories it is chosen from.
const STEPS: usize = 60;
const HISTORIES: u64 = 2_000;
/// Damaged copies for each fault, and draws for each thing that is looked for.
const COPIES: usize = 2;
const DRAWS: usize = 200_000;

pub fn write(folder: &Path) -> std::io::Result<bool> {
    let mut sample = Sample::default();
    sample.history();
    sample.edges();
    sample.statuses();
    sample.rooms();
    sample.flags();
    sample.validations();
    sample.faults();
    sample.limits();
    sample.expiries();
    sample.alike();
    sample.on_reserved();
    println!("{} cases in {} bytes", sample.cases, sample.stdin.len());
    sample.counts.print();
    let complete = all_came(&sample.counts.missing_answers());
    writeln!(sample.stdout, "same {}", sample.cases).expect("text");
    std::fs::create_dir_all(folder)?;
    std::fs::write(folder.join("stdin"), sample.stdin)?;
    std::fs::write(folder.join("stdout"), sample.stdout)?;
    Ok(complete)
}

#[derive(Default)]
struct Sample {
    stdin: Vec<u8>,
    stdout: String,
    cases: usize,
    /// The image that stands.
    image: Vec<u8>,
    counts: Counts,
}

type Scene = (PublicationAuthorityState, Request);

impl Sample {
    fn number(&mut self, n: usize) {
        self.stdin.extend_from_slice(&(n as u32).to_le_bytes());
    }

    fn bytes(&mut self, bytes: &[u8]) {
        self.number(bytes.len());
        self.stdin.extend_from_slice(bytes);
    }

    fn case(&mut self, kind: u8, line: String) {
        self.stdin.push(kind);
        self.cases += 1;
        writeln!(self.stdout, "{} {line}", self.cases).expect("text");
    }

    fn load(&mut self, image: &[u8]) {
        if self.image != image {
            self.case(0, "load".to_owned());
            self.bytes(image);
            self.image = image.to_vec();
        }
    }

    fn apply(&mut self, request: &[u8], room: usize, outcome_room: usize) -> Transition {
        let (state, read) = (decode::image(&self.image), decode::request(request));
        let transition = oracle::transition(&state, &read);
        let answer = transition.answer(room, outcome_room);
        self.counts.read(&state, &read);
        self.counts.applied(&state, &read, (room, outcome_room), &answer);
        self.case(1, format!("apply {}", answer.status));
        self.bytes(request);
        self.number(room);
        self.number(outcome_room);
        self.number(answer.status as usize);
        self.bytes(&answer.next);
        self.bytes(&answer.outcome);
        if answer.status == 0 {
            self.image = answer.next;
        }
        transition
    }

    fn validate(&mut self, token: &[u8]) {
        let (state, read) = (decode::image(&self.image), decode::token(token));
        let number = oracle::validate(&state, &read);
        self.counts.validated(&state, &read, number);
        self.case(2, format!("validate {number}"));
        self.bytes(token);
        self.number(number as usize);
    }

    fn test(&mut self) {
        let state = decode::image(&self.image);
        let number = oracle::test(&state);
        self.counts.tested(&state, number);
        self.case(3, format!("test {number}"));
        self.number(number as usize);
    }

    fn play(&mut self, (state, request): &Scene) {
        self.load(&encode::image(state).bytes);
        self.apply(&encode::request(request).bytes, ROOM, OUTCOME_ROOM);
    }

    /// Requests from the default state on, and the tokens that they give: of many histories the one with the most
    /// different answers.
    fn history(&mut self) {
        let seed = (0..HISTORIES).max_by_key(|seed| Sample::default().steps(*seed));
        self.steps(seed.unwrap_or(0));
    }

    /// How many different answers there were.
    fn steps(&mut self, seed: u64) -> usize {
        let mut g = Gen::new(seed, Shape { odds: 20, ..SMALL });
        let mut state = PublicationAuthorityState::default();
        let mut tokens: Vec<SnapshotLeaseToken> = Vec::new();
        self.load(&encode::image(&state).bytes);
        self.test();
        for step in 0..STEPS {
            let request = g.request(&state, Flags::Off);
            let answer = self.apply(&encode::request(&request).bytes, ROOM, OUTCOME_ROOM);
            if let Some(next) = answer.left(ROOM, OUTCOME_ROOM) {
                let given = next.leases.values().filter(|token| !tokens.contains(token));
                tokens.extend(given.cloned().collect::<Vec<_>>());
                state = next;
            }
            if step % 4 == 3 && !tokens.is_empty() {
                let token = g.rng.pick(&tokens);
                self.validate(&encode::token(&token).bytes);
            }
        }
        self.test();
        self.counts.actions.len() + self.counts.validate.len()
    }

    /// The edges of document 01 that are not proved.
    fn edges(&mut self) {
        let default = PublicationAuthorityState::default();
        let named = |sha256: String| ObjectReference {
            kind: ObjectKind::Manifest,
            key: "k".to_owned(),
            length: 1,
            sha256,
        };
        // E11
        let manifest = named("a".repeat(64));
        let action = PublicationAction::AcquireLease {
            lease_id: "l".to_owned(),
            tenant_id: "t".to_owned(),
            snapshot_version: 1,
            owner: String::new(),
            purpose: "p".to_owned(),
            deadline_tick: 1,
            closure: SnapshotClosure { object_keys: [manifest.key.clone()].into(), manifest },
        };
        self.play(&(default.clone(), plain(action)));
        // E12
        for sha256 in ["a".repeat(63), "A".to_owned() + &"a".repeat(63)] {
            let action =
                PublicationAction::Pin { pin_id: "p".to_owned(), expected: None, manifest: named(sha256) };
            self.play(&(default.clone(), plain(action)));
        }
    }

    /// Each action with each refusal that it can have, as small as can be.
    fn statuses(&mut self) {
        for (action, status) in every_status().filter(|(_, status)| ![0, 45, 46].contains(status)) {
            let has = |scene: &Scene| {
                encode::action_byte(&scene.1.action) == action && answer_of(scene).status == status
            };
            let scene = search(0, |g| {
                let state = match grown_by(action) {
                    Some(table) if status == 44 => g.filled(table, Fill::Full),
                    _ => g.state(false),
                };
                let flags = g.rng.pick(&[Flags::Off, Flags::Any]);
                let request = g.request_of(action, &state, flags);
                Some((state, request)).filter(has)
            });
            self.play(&shrink::value(scene, |scene| has_image(&scene.0) && has(scene)));
        }
    }

    /// Each action accepted, with texts of any length and with room of one byte less and of just enough.
    fn rooms(&mut self) {
        for action in 1..=ACTIONS {
            let (state, request) = search(0, |g| {
                g.shape = Shape { ids: 40, texts: Texts::Mixed, odds: 10 };
                let state = g.state(false);
                let request = g.request_of(action, &state, Flags::Off);
                Some((state, request)).filter(|scene| answer_of(scene).status == 0)
            });
            self.load(&encode::image(&state).bytes);
            let Answer { next, outcome, .. } = answer_of(&(state, request.clone()));
            let request = encode::request(&request).bytes;
            self.apply(&request, next.len() - 1, outcome.len());
            self.apply(&request, next.len(), outcome.len() - 1);
            self.apply(&request, next.len(), outcome.len());
        }
    }

    /// Each fault flag where it decides.
    fn flags(&mut self) {
        for bit in 0..FLAGS {
            let flag = 1 << bit;
            let decides = |(state, request): &Scene| {
                let on = encode::flags(request.faults) == flag;
                on && !oracle::deciding_flags(state, request).is_empty()
            };
            let scene = search(0, |g| {
                let state = g.state(false);
                let mut request = g.request(&state, Flags::Off);
                request.faults = decode::faults(flag);
                Some((state, request)).filter(decides)
            });
            self.play(&shrink::value(scene, |scene| has_image(&scene.0) && decides(scene)));
        }
    }

    /// Each answer of a validation on a state built for it.
    fn validations(&mut self) {
        for number in 0..=4 {
            let (state, token) = search(0, |g| {
                let state = g.state(false);
                let token = g.token(&state);
                let answer = oracle::validate(&Ok(state.clone()), &Ok(token.clone()));
                (answer == number).then_some((state, token))
            });
            self.load(&encode::image(&state).bytes);
            self.validate(&encode::token(&token).bytes);
        }
    }

    /// Each fault of an image, a request and a token.
    fn faults(&mut self) {
        let state = PublicationAuthorityState::default();
        let request = encode::request(&search(0, |g| Some(g.request(&state, Flags::Off)))).bytes;
        let token = encode::token(&search(0, |g| Some(g.token(&state)))).bytes;
        for copy in 0..COPIES {
            for fault in faults_of(Input::Image).filter(|fault| *fault != Fault::ImageLimit) {
                let image = search(copy, |g| {
                    let whole = encode::image(&g.state(false));
                    let bytes = aim::damaged(&mut g.rng, &whole, true);
                    (decode::image(&bytes).err() == Some(fault)).then_some(bytes)
                });
                self.load(&image);
                self.no_image(&request, &token);
            }
            self.load(&encode::image(&state).bytes);
            for fault in faults_of(Input::Request) {
                let request = search(copy, |g| {
                    let state = g.state(false);
                    let whole = encode::request(&g.request(&state, Flags::Off));
                    let bytes = aim::damaged(&mut g.rng, &whole, false);
                    (decode::request(&bytes).err() == Some(fault)).then_some(bytes)
                });
                self.apply(&request, ROOM, OUTCOME_ROOM);
            }
            for fault in faults_of(Input::Token) {
                let token = search(copy, |g| {
                    let state = g.state(false);
                    let whole = encode::token(&g.token(&state));
                    let bytes = aim::damaged(&mut g.rng, &whole, false);
                    (decode::token(&bytes).err() == Some(fault)).then_some(bytes)
                });
                self.validate(&token);
            }
        }
    }

    /// What stands is refused by each call.
    fn no_image(&mut self, request: &[u8], token: &[u8]) {
        self.test();
        self.apply(request, ROOM, OUTCOME_ROOM);
        self.validate(token);
    }

    /// A pin whose key grows by a byte: up to 65,535 bytes it is taken, to 65,536 it is not, and an image of 65,536
    /// bytes is none.
    fn limits(&mut self) {
        let pinned = |length: usize| ObjectReference {
            kind: ObjectKind::Manifest,
            key: "k".repeat(length),
            length: 0,
            sha256: "0".repeat(64),
        };
        let mut state = PublicationAuthorityState::default();
        state.pins.insert("p".to_owned(), pinned(1));
        let filled = |size: usize| {
            let mut state = state.clone();
            state.intents.extend(fillings(size - encode::image(&state).bytes.len()));
            encode::image(&state).bytes
        };
        let grow = |from: usize| {
            let action = PublicationAction::Pin {
                pin_id: "p".to_owned(),
                expected: Some(pinned(from)),
                manifest: pinned(from + 1),
            };
            encode::request(&plain(action)).bytes
        };
        self.load(&filled(IMAGE - 1));
        self.apply(&grow(1), ROOM, OUTCOME_ROOM);
        self.apply(&grow(2), ROOM, OUTCOME_ROOM);
        self.load(&filled(IMAGE + 1));
        let token = encode::token(&search(0, |g| Some(g.token(&state)))).bytes;
        self.no_image(&grow(1), &token);
    }

    /// Ended leases with all that can stand side by side, each as small as can be, and 64 with all of it.
    fn expiries(&mut self) {
        for neighbours in NEIGHBOURS {
            let has = |scene: &Scene| neighbours.are_in(&ended_of(scene), &scene.0);
            let scene = search(0, |g| Some(g.expiry(2)).filter(has));
            self.play(&shrink::value(scene, |scene| has_image(&scene.0) && has(scene)));
        }
        let all = |scene: &Scene| NEIGHBOURS.iter().all(|n| n.are_in(&ended_of(scene), &scene.0));
        self.play(&search(0, |g| Some(g.expiry(TABLES[4])).filter(all)));
    }

    /// Two reservations whose keys share a hundred bytes, for each place at which these can first differ: in order, each
    /// retired, and in each other's place.
    fn alike(&mut self) {
        for place in every_place() {
            let state = search(0, |g| Some(two_alike(g)).filter(|state| differ_at(state, place)));
            let image = encode::image(&state);
            self.load(&image.bytes);
            self.test();
            for scene in retired(&state) {
                self.play(&scene);
            }
            if let [first, second] = reservations(&image) {
                self.load(&exchanged(&image, first, second));
                self.test();
            }
        }
    }

    /// Leases on reserved keys, each as small as can be: the key at each place; with each set of fault flags and nothing
    /// lent; and what comes in place of 10.
    fn on_reserved(&mut self) {
        for action in [ACQUIRE, RENEW] {
            self.play(&on_reserved(action, &[Kind::Before(24)]));
            for place in [First, Middle, Last] {
                let kinds = [Kind::InClosure(place), Kind::InTable(place), Kind::OfManifest(false)];
                self.play(&on_reserved(action, &kinds));
            }
            let kinds = [Kind::InClosure(Only), Kind::InTable(Only), Kind::OfManifest(true)];
            let (state, mut request) = on_reserved(action, &kinds);
            for flags in flag_sets() {
                request.faults = decode::faults(flags);
                self.play(&(state.clone(), request.clone()));
            }
            for room in [0, ROOM] {
                self.apply(&encode::request(&request).bytes, room, 0);
            }
        }
        self.play(&on_reserved(ACQUIRE, &[Kind::FullTable]));
        self.play(&on_reserved(RENEW, &[Kind::NotNamed]));
        self.play(&on_reserved(RELEASE, &[Kind::Named]));
    }
}

/// A call that is of all these kinds.
fn on_reserved(action: u8, kinds: &[Kind]) -> Scene {
    let has = |scene: &Scene| {
        let (state, request) = scene;
        let found = reserved::kinds(state, request, (ROOM, OUTCOME_ROOM), answer_of(scene).status);
        encode::action_byte(&request.action) == action && kinds.iter().all(|kind| found.contains(kind))
    };
    let scene = search(0, |g| Some(g.on_reserved(action, 0)).filter(has));
    shrink::value(scene, |scene| has_image(&scene.0) && has(scene))
}

/// Draws until there is what is looked for.
fn search<T>(start: usize, mut draw: impl FnMut(&mut Gen) -> Option<T>) -> T {
    (0..DRAWS)
        .find_map(|n| draw(&mut Gen::new((start * DRAWS + n) as u64, SMALL)))
        .expect("a sample of what can come")
}

fn two_alike(g: &mut Gen) -> PublicationAuthorityState {
    g.shape = ALIKE;
    PublicationAuthorityState { deletion_reservations: g.table(2, Gen::reservation), ..Default::default() }
}

/// Each reservation retired by the generation that made it.
fn retired(state: &PublicationAuthorityState) -> Vec<Scene> {
    let retire = |permit: &DeletePermit| {
        let mut request = plain(PublicationAction::RetireDelete { permit: permit.clone() });
        request.context.generation = permit.owner_generation();
        (state.clone(), request)
    };
    state.deletion_reservations.values().map(retire).collect()
}

/// Whether the keys of the two reservations share a hundred bytes and first differ here, and both can be retired.
fn differ_at(state: &PublicationAuthorityState, place: Place) -> bool {
    let keys: Vec<&[u8]> = state.deletion_reservations.keys().map(String::as_bytes).collect();
    first_difference(keys[0], keys[1]).is_some_and(|(same, at)| same >= ALIKE_BYTES && at == place)
        && has_image(state)
        && retired(state).iter().all(|scene| answer_of(scene).status == 0)
}

/// Whether each record stands under the id inside it and all is within the limits.
fn has_image(state: &PublicationAuthorityState) -> bool {
    decode::image(&encode::image(state).bytes).as_ref() == Ok(state)
}

/// The leases that a clock step ends, in the order of its outcome; none where it is refused or another action.
fn ended_of(scene: &Scene) -> Vec<String> {
    decode::ended(&answer_of(scene).outcome).unwrap_or_default()
}

fn answer_of((state, request): &Scene) -> Answer {
    oracle::transition(&Ok(state.clone()), &Ok(request.clone())).answer(ROOM, OUTCOME_ROOM)
}
