//! The runs: histories, full tables, leases that end, leases on reserved keys, ids alike, full images, damaged bytes,
//! okvstep, and texts. A seed gives one run.
use crate::actions::{plain, Flags, ACTIONS};
use crate::aim::damaged;
use crate::counts::{all_came, grown_by};
use crate::damage::{every, exchanged};
use crate::decode::{self, Request};
use crate::encode;
use crate::held::{Held, Lend};
use crate::limits::*;
use crate::oracle::{self, Transition};
use crate::reserved::{self, ACQUIRE, RENEW};
use crate::rng::Rng;
use crate::states::{filling, fillings, reservations, Fill, ALIKE, FILLING, FILLING_MOST};
use crate::texts;
use crate::values::{Gen, Shape, Texts};
use okv_publication::*;

/// Comparisons of texts in a run.
const TEXTS: usize = 1_000;

/// Plays run after run until there are so many calls, and says whether all came that must.
pub fn play(seed: u64, calls: u64) -> bool {
    let mut held = Held::default();
    for room in [0, 1, 156, 157, 158, IMAGE, IMAGE + 1] {
        held.default_image(room);
    }
    for end in ends() {
        held.steps(Vec::new(), end);
    }
    let mut runs = 0;
    while held.counts.calls() < calls {
        held.seed = seed.wrapping_add(runs);
        held.step = 0;
        one(&mut held, runs);
        runs += 1;
    }
    let (calls, texts) = (held.counts.calls(), held.counts.texts);
    println!("{calls} calls and {texts} comparisons of texts in {runs} runs from seed {seed}, no difference");
    held.counts.print();
    let missing = [held.counts.missing_answers(), held.counts.missing_limits()].concat();
    all_came(&missing)
}

const SMALL: Shape = Shape { ids: 4, texts: Texts::Short, odds: 12 };
const MANY: Shape = Shape { ids: 90, texts: Texts::Mixed, odds: 12 };
const LONG: Shape = Shape { ids: 40, texts: Texts::Full, odds: 20 };

fn one(held: &mut Held, run: u64) {
    let shape = [SMALL, MANY, SMALL, MANY, ALIKE][(run / 8 % 5) as usize];
    let g = &mut Gen::new(held.seed, shape);
    texts_of(held);
    if run % 256 == 0 {
        sweep(held, g);
    }
    match run % 8 {
        0 => history(held, g, PublicationAuthorityState::default(), 300),
        1 => built(held, g, 20, false),
        2 => built(held, g, 5, true),
        3 => {
            tables(held, g);
            expiries(held, g);
            alike(held, g);
            on_reserved(held, g);
        }
        4 => lengths(held, g),
        5 | 6 => damage(held, g),
        _ => steps(held, g),
    }
}

/// Requests one after another, each on what the one before left, and tokens that were given on the way.
fn history(held: &mut Held, g: &mut Gen, mut state: PublicationAuthorityState, length: usize) {
    let flags = g.rng.pick(&[Flags::Off, Flags::Any]);
    // what request K3 claims is of such a history
    let claimed = flags == Flags::Off && state == PublicationAuthorityState::default();
    let refused = held.counts.came(ACQUIRE, 10);
    let mut tokens = Tokens::default();
    for _ in 0..length {
        held.step += 1;
        let image = encode::image(&state).bytes;
        let request = encode::request(&g.request(&state, flags)).bytes;
        let lend = lend(g);
        if let Some(next) = held.apply(&image, &request, lend) {
            state = next;
        }
        assert!(!(claimed && reserved::stands(&state)), "a live lease names a reserved key");
        let image = encode::image(&state).bytes;
        held.validate(&image, &encode::token(&g.token(&state)).bytes);
        tokens.see(&state);
        if let Some(token) = tokens.pick(held, g, &state) {
            held.validate(&image, &encode::token(&token).bytes);
        }
    }
    if claimed {
        held.counts.reserved_in_history += held.counts.came(ACQUIRE, 10) - refused;
    }
}

/// Now and then each room around what is needed.
fn lend(g: &mut Gen) -> Lend {
    if g.rng.one_in(4) {
        Lend::Tight
    } else {
        Lend::Ample
    }
}

/// The tokens of a history: of leases that live, that were renewed since, and that ended.
#[derive(Default)]
struct Tokens {
    live: Vec<SnapshotLeaseToken>,
    ended: Vec<SnapshotLeaseToken>,
}

impl Tokens {
    fn see(&mut self, state: &PublicationAuthorityState) {
        let (live, ended): (Vec<_>, Vec<_>) =
            self.live.drain(..).partition(|token| state.leases.contains_key(&token.lease_id));
        self.live = live;
        self.ended.extend(ended);
        for token in state.leases.values() {
            if !self.live.contains(token) {
                self.live.push(token.clone());
            }
        }
    }

    fn pick(
        &self,
        held: &mut Held,
        g: &mut Gen,
        state: &PublicationAuthorityState,
    ) -> Option<SnapshotLeaseToken> {
        let from = if g.rng.one_in(2) { &self.live } else { &self.ended };
        if from.is_empty() {
            return None;
        }
        let token = g.rng.pick(from);
        if self.ended.contains(&token) && state.leases.contains_key(&token.lease_id) {
            held.counts.used_anew += 1;
        }
        Some(token)
    }
}

/// Short histories from states that were built directly.
fn built(held: &mut Held, g: &mut Gen, states: usize, crowded: bool) {
    for _ in 0..states {
        let state = g.state(crowded);
        history(held, g, state, 15);
    }
}

/// Each action that can make a table longer, on one that is full and on one that is one short of it.
fn tables(held: &mut Held, g: &mut Gen) {
    for table in 0..TABLES.len() {
        for fill in [Fill::OneShort, Fill::Full, Fill::Over] {
            held.step += 1;
            let state = g.filled(table, fill);
            held.test(&encode::image(&state).bytes);
        }
    }
    for action in 1..=ACTIONS {
        let Some(table) = grown_by(action) else { continue };
        // a collection that makes a new root needs a job on a root that is not there, and a flag
        let states = if action == 10 { 30 } else { 4 };
        for fill in [Fill::OneShort, Fill::Full] {
            for _ in 0..states {
                held.step += 1;
                let state = g.filled(table, fill);
                let image = encode::image(&state).bytes;
                for flags in [Flags::Off, Flags::Any, Flags::Any] {
                    let request = g.request_of(action, &state, flags);
                    held.apply(&image, &encode::request(&request).bytes, Lend::Ample);
                }
            }
        }
    }
}

/// Clock steps that end each number of leases, none to all.
fn expiries(held: &mut Held, g: &mut Gen) {
    g.shape = g.rng.pick(&[g.shape, LONG]);
    for ended in 0..=TABLES[4] {
        held.step += 1;
        let (state, request) = g.expiry(ended);
        let (image, request) = (encode::image(&state).bytes, encode::request(&request).bytes);
        held.apply(&image, &request, lend(g));
    }
}

/// Leases on reserved keys, with each set of fault flags.
fn on_reserved(held: &mut Held, g: &mut Gen) {
    g.shape = g.rng.pick(&[SMALL, MANY, ALIKE]);
    for action in [ACQUIRE, RENEW].repeat(2) {
        for flags in reserved::flag_sets() {
            held.step += 1;
            let (state, request) = g.on_reserved(action, flags);
            let (image, request) = (encode::image(&state).bytes, encode::request(&request).bytes);
            held.apply(&image, &request, Lend::Tight);
        }
    }
}

/// Reservations of keys that are alike: in order, each two neighbours in each other's place, and looked up by their keys.
fn alike(held: &mut Held, g: &mut Gen) {
    g.shape = ALIKE;
    for _ in 0..4 {
        let mut state = g.state(false);
        state.deletion_reservations = g.table(24, Gen::reservation);
        let image = encode::image(&state);
        held.test(&image.bytes);
        let rows = reservations(&image);
        let keys: Vec<&String> = state.deletion_reservations.keys().collect();
        for (ids, rows) in keys.windows(2).zip(rows.windows(2)) {
            held.step += 1;
            let exchanged = exchanged(&image, &rows[0], &rows[1]);
            held.test(&exchanged);
            for image in [&image.bytes, &exchanged] {
                held.counts.alike([ids[0], ids[1]], &decode::image(image));
            }
            for action in [16, 17] {
                let request = g.request_of(action, &state, Flags::Off);
                held.apply(&image.bytes, &encode::request(&request).bytes, Lend::Ample);
            }
        }
    }
}

/// Pairs of texts, side by side: they begin at any place of a word, and the second stands where the first ends.
fn texts_of(held: &mut Held) {
    let rng = &mut Rng::new(held.seed);
    for _ in 0..TEXTS {
        held.step += 1;
        let [a, b] = texts::pair(rng);
        let start = rng.index(8);
        let bytes = [&[0; 8][..start], &a, &b].concat();
        let (a, b) = bytes[start..].split_at(a.len());
        held.compare(a, b);
    }
}

/// Images, and next images, of 65,535 bytes and of one more.
fn lengths(held: &mut Held, g: &mut Gen) {
    for _ in 0..12 {
        held.step += 1;
        let crowded = g.rng.one_in(3);
        let state = g.state(crowded);
        let request = g.request(&state, Flags::Any);
        let now = encode::image(&state).bytes.len();
        for length in [IMAGE, IMAGE + 1] {
            filled_up(held, &state, &request, length.saturating_sub(now));
            if let Transition::Accepted { next, .. } =
                oracle::transition(&Ok(state.clone()), &Ok(request.clone()))
            {
                filled_up(held, &state, &request, length.saturating_sub(next.len()));
            }
        }
    }
}

fn filled_up(held: &mut Held, state: &PublicationAuthorityState, request: &Request, bytes: usize) {
    let mut state = state.clone();
    state.intents.extend(fillings(bytes));
    let image = encode::image(&state).bytes;
    held.test(&image);
    held.apply(&image, &encode::request(request).bytes, Lend::Tight);
}

/// Damaged images, requests and tokens.
fn damage(held: &mut Held, g: &mut Gen) {
    for _ in 0..20 {
        let crowded = g.rng.one_in(10);
        let state = g.state(crowded);
        let image = encode::image(&state);
        for _ in 0..15 {
            held.step += 1;
            let request = encode::request(&g.request(&state, Flags::Any));
            let token = encode::token(&g.token(&state));
            let other_image = damaged(&mut g.rng, &image, true);
            let other_request = damaged(&mut g.rng, &request, false);
            let other_token = damaged(&mut g.rng, &token, false);
            held.test(&other_image);
            held.apply(&other_image, &request.bytes, Lend::Ample);
            held.validate(&other_image, &token.bytes);
            held.apply(&image.bytes, &other_request, Lend::Ample);
            held.validate(&image.bytes, &other_token);
            held.apply(&other_image, &other_request, Lend::Ample);
            held.validate(&other_image, &other_token);
        }
    }
}

/// All that can be done to one place of an image, of a request of each action, and of a token.
fn sweep(held: &mut Held, g: &mut Gen) {
    let mut state = g.state(false);
    while sizes(&state).contains(&0) || state.collection_root.is_none() {
        state = g.state(false);
    }
    let image = encode::image(&state);
    let request = encode::request(&g.request(&state, Flags::Off)).bytes;
    every(&image, true, |damaged| {
        held.step += 1;
        held.test(damaged);
        held.apply(damaged, &request, Lend::Ample);
    });
    for action in 1..=ACTIONS {
        let request = encode::request(&g.request_of(action, &state, Flags::Off));
        every(&request, false, |damaged| {
            held.step += 1;
            held.apply(&image.bytes, damaged, Lend::Ample);
        });
    }
    for token in state.leases.values() {
        every(&encode::token(token), false, |damaged| {
            held.step += 1;
            held.validate(&image.bytes, damaged);
        });
    }
}

/// A history for okvstep, with images at its limit, and an end that is good or bad.
fn steps(held: &mut Held, g: &mut Gen) {
    g.shape = g.rng.pick(&[SMALL, LONG, LONG]);
    let flags = g.rng.pick(&[Flags::Off, Flags::Any]);
    let mut state = PublicationAuthorityState::default();
    let mut frames = Vec::new();
    for step in 0..120 {
        held.step += 1;
        // now and then an intent that takes the image towards its limit, just to it, or one byte past it
        let target = STEP_IMAGE + g.rng.index(2);
        let left = target.saturating_sub(encode::image(&state).bytes.len());
        let request = if left >= FILLING && g.rng.one_in(4) {
            let (publication_id, prepared) = filling(step, left.min(FILLING_MOST));
            plain(PublicationAction::Prepare { publication_id, intent: prepared.intent })
        } else {
            g.request(&state, flags)
        };
        let transition = oracle::transition(&Ok(state.clone()), &Ok(request.clone()));
        if let Transition::Accepted { next, .. } = &transition {
            held.counts.length("okvstep", next.len(), STEP_IMAGE);
        }
        if let Some(next) = transition.left(STEP_IMAGE, STEP_OUTCOME) {
            state = next;
        }
        let frame = encode::request(&request);
        if g.rng.one_in(20) {
            frames.push(damaged(&mut g.rng, &frame, false));
        }
        frames.push(frame.bytes);
    }
    let end = g.rng.pick(&ends());
    held.steps(frames, end);
}

/// Nothing, a frame as long as may be or of no bytes, or one that is cut or too long.
fn ends() -> Vec<Vec<u8>> {
    let frame = |size: usize, bytes: usize| {
        let mut frame = (size as u32).to_le_bytes().to_vec();
        frame.resize(4 + bytes, 1);
        frame
    };
    vec![
        Vec::new(),
        frame(FRAME, FRAME),
        frame(FRAME + 1, FRAME + 1),
        frame(0, 0),
        vec![1],
        vec![1; 3],
        frame(1, 0),
        frame(100, 99),
        frame(FRAME, FRAME - 1),
        frame(u32::MAX as usize, 10),
    ]
}
