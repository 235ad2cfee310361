//! How often each answer came, and which answers must come.
use crate::decode::Fault::{self, *};
use crate::decode::{self, Read, Request};
use crate::expiry::{Neighbours, NEIGHBOURS};
use crate::oracle::{self, Answer};
use crate::texts::{self, Kind, Place};
use crate::{encode, limits, reserved};
use okv_publication::{PublicationAuthorityState, SnapshotLeaseToken};
use std::collections::BTreeMap;

/// What bytes are read as.
#[derive(Clone, Copy, Debug, Eq, Ord, PartialEq, PartialOrd)]
pub enum Input {
    Image,
    Request,
    Token,
}

/// The statuses that the Rust gives for each action, in the order in which it tests them; then 10 of leases, which it does
/// not test, and 44 where the action can make a table longer. Beside these each action is accepted, and refused with 45 and
/// 46 for want of room.
///
/// Status 1 (`GenerationFenced`) is given by no line of the Rust. All others of 0 to 36 and 40 to 46 must come.
const STATUSES: [&[u32]; 17] = [
    &[2, 16],
    &[2, 17],
    &[2, 27],
    &[2, 36, 32],
    &[2, 18, 21, 19, 20, 24, 10, 44],
    &[2, 22, 23, 24, 10],
    &[2, 22, 23],
    &[2, 25, 26],
    &[2, 29, 32, 28, 36, 34, 33, 7, 44],
    &[2, 30, 35, 6, 28, 36, 34, 7, 10, 44],
    &[2, 30, 31, 6],
    &[2, 3, 10, 44],
    &[2, 5, 6, 4, 7, 44],
    &[2, 8, 44],
    &[2, 8],
    &[2, 9, 11, 12, 44],
    &[2, 13, 14, 15],
];

#[derive(Default)]
pub struct Counts {
    pub apply: BTreeMap<u32, u64>,
    pub validate: BTreeMap<u32, u64>,
    pub test: BTreeMap<u32, u64>,
    pub default: BTreeMap<u32, u64>,
    pub outcomes: [u64; 7],
    /// Lists of ended leases, by how many they are and by what stands side by side in them.
    pub ended: BTreeMap<usize, u64>,
    pub neighbours: BTreeMap<Neighbours, u64>,
    /// Calls about leases and reserved keys, by action and kind, and how often one in a history from the default state with
    /// flags off refused a new lease.
    pub reserved: BTreeMap<(u8, reserved::Kind), u64>,
    pub reserved_in_history: u64,
    /// By action and status, of requests that can be read.
    pub actions: BTreeMap<(u8, u32), u64>,
    /// By kind of input and its first fault.
    pub faults: BTreeMap<(Input, Fault), u64>,
    /// How often the answer would be another one without this flag.
    pub flags: [u64; limits::FLAGS],
    /// How often a next image had just the length that is the limit, and one more.
    pub lengths: BTreeMap<(&'static str, usize), u64>,
    /// Images with neighbouring records whose ids share a hundred bytes, by where these ids first differ and by whether they
    /// stand in order.
    pub alike: BTreeMap<(Place, bool), u64>,
    /// How often the token of an ended lease was shown while another lease had its id.
    pub used_anew: u64,
    /// Lines of okvstep by status, and how it ended.
    pub steps: BTreeMap<u32, u64>,
    pub ends: BTreeMap<String, u64>,
    /// Comparisons of texts, and how often each kind of pair came.
    pub texts: u64,
    pub text_kinds: BTreeMap<Kind, u64>,
}

/// Bytes that two ids must share to be counted as alike.
pub const ALIKE_BYTES: usize = 100;

impl Counts {
    pub fn calls(&self) -> u64 {
        [&self.apply, &self.validate, &self.test, &self.default, &self.steps]
            .iter()
            .flat_map(|counts| counts.values())
            .sum()
    }

    /// How often an action had this status.
    pub fn came(&self, action: u8, status: u32) -> u64 {
        self.actions.get(&(action, status)).copied().unwrap_or(0)
    }

    fn fault<T>(&mut self, input: Input, read: &Read<T>) {
        if let Err(fault) = read {
            *self.faults.entry((input, *fault)).or_default() += 1;
        }
    }

    /// An image and a request, however often the request is then applied to it.
    pub fn read(&mut self, state: &Read<PublicationAuthorityState>, request: &Read<Request>) {
        self.fault(Input::Image, state);
        self.fault(Input::Request, request);
        if let (Ok(state), Ok(request)) = (state, request) {
            for flag in oracle::deciding_flags(state, request) {
                self.flags[flag] += 1;
            }
        }
    }

    pub fn applied(
        &mut self,
        state: &Read<PublicationAuthorityState>,
        request: &Read<Request>,
        lent: (usize, usize),
        answer: &Answer,
    ) {
        *self.apply.entry(answer.status).or_default() += 1;
        if let Some(outcome) = answer.outcome.first() {
            self.outcomes[*outcome as usize] += 1;
        }
        if let Ok(request) = request {
            let action = encode::action_byte(&request.action);
            *self.actions.entry((action, answer.status)).or_default() += 1;
            self.reserved(state, request, lent, answer.status);
        }
        if let (Ok(state), Some(lease_ids)) = (state, decode::ended(&answer.outcome)) {
            self.ended(&lease_ids, state);
        }
    }

    fn reserved(
        &mut self,
        state: &Read<PublicationAuthorityState>,
        request: &Request,
        lent: (usize, usize),
        status: u32,
    ) {
        let Ok(state) = state else { return };
        let action = encode::action_byte(&request.action);
        for kind in reserved::kinds(state, request, lent, status) {
            *self.reserved.entry((action, kind)).or_default() += 1;
        }
    }

    fn ended(&mut self, lease_ids: &[String], before: &PublicationAuthorityState) {
        *self.ended.entry(lease_ids.len()).or_default() += 1;
        for neighbours in NEIGHBOURS {
            if neighbours.are_in(lease_ids, before) {
                *self.neighbours.entry(neighbours).or_default() += 1;
            }
        }
    }

    pub fn validated(
        &mut self,
        state: &Read<PublicationAuthorityState>,
        token: &Read<SnapshotLeaseToken>,
        number: u32,
    ) {
        self.fault(Input::Image, state);
        self.fault(Input::Token, token);
        *self.validate.entry(number).or_default() += 1;
    }

    pub fn tested(&mut self, state: &Read<PublicationAuthorityState>, number: u32) {
        self.fault(Input::Image, state);
        *self.test.entry(number).or_default() += 1;
    }

    pub fn length(&mut self, of: &'static str, length: usize, most: usize) {
        if length == most || length == most + 1 {
            *self.lengths.entry((of, length)).or_default() += 1;
        }
    }

    /// Two ids of neighbouring records of an image that was tested.
    pub fn alike(&mut self, ids: [&str; 2], image: &Read<PublicationAuthorityState>) {
        let in_order = match image {
            Ok(_) => true,
            Err(RecordOrder) => false,
            Err(_) => return,
        };
        match texts::first_difference(ids[0].as_bytes(), ids[1].as_bytes()) {
            Some((same, place)) if same >= ALIKE_BYTES => {
                *self.alike.entry((place, in_order)).or_default() += 1
            }
            _ => {}
        }
    }

    pub fn compared(&mut self, a: &[u8], b: &[u8]) {
        self.texts += 1;
        for kind in texts::kinds(a, b) {
            *self.text_kinds.entry(kind).or_default() += 1;
        }
    }

    /// The lines that okvstep printed after its header.
    pub fn stepped(&mut self, lines: &str) {
        for line in lines.lines().skip(1) {
            match line.split(' ').nth(1).and_then(|status| status.parse().ok()) {
                Some(status) => *self.steps.entry(status).or_default() += 1,
                None => *self.ends.entry(line.to_owned()).or_default() += 1,
            }
        }
    }

    pub fn print(&self) {
        println!("apply: {:?}", self.apply);
        println!("outcomes: {:?}", self.outcomes);
        let fewest = self.ended.iter().min_by_key(|(_, count)| **count);
        println!("rarest number of ended leases: {fewest:?}, neighbours: {:?}", self.neighbours);
        let kinds = reserved::every_kind();
        let rarest = kinds.iter().filter_map(|kind| self.reserved.get_key_value(kind));
        let rarest = rarest.min_by_key(|(_, count)| **count);
        println!("rarest call about a reserved key: {rarest:?}, in histories: {}", self.reserved_in_history);
        println!("validate: {:?}, {} of ended leases", self.validate, self.used_anew);
        println!("test: {:?}, default: {:?}", self.test, self.default);
        let rarest = self.actions.iter().min_by_key(|(_, count)| **count);
        println!("rarest action and status: {rarest:?}");
        println!("flags that decided: {:?}", self.flags);
        println!("faults: {:?}", self.faults);
        println!("next images of a limit's length and one more: {:?}", self.lengths);
        println!("neighbouring ids that share {ALIKE_BYTES} bytes, by place and order: {:?}", self.alike);
        println!("okvstep: {:?}, {:?}", self.steps, self.ends);
        let kinds = texts::every_kind();
        let rarest = kinds.iter().filter_map(|kind| self.text_kinds.get_key_value(kind));
        println!("rarest kind of two texts: {:?}", rarest.min_by_key(|(_, count)| **count));
    }

    /// The answers that must come and did not.
    pub fn missing_answers(&self) -> Vec<String> {
        let mut missing = Vec::new();
        let mut must = |came: bool, what: String| {
            if !came {
                missing.push(what);
            }
        };
        for status in (0..=36).filter(|status| *status != 1).chain(40..=46) {
            must(self.apply.contains_key(&status), format!("apply {status}"));
        }
        for number in (0..=4).chain(40..=43) {
            must(self.validate.contains_key(&number), format!("validate {number}"));
        }
        for number in [0, 40] {
            must(self.test.contains_key(&number), format!("test {number}"));
        }
        for (outcome, count) in self.outcomes.iter().enumerate() {
            must(*count > 0, format!("outcome {outcome}"));
        }
        for neighbours in NEIGHBOURS {
            let came = self.neighbours.contains_key(&neighbours);
            must(came, format!("{neighbours:?} among ended leases"));
        }
        for pair in every_status() {
            must(self.actions.contains_key(&pair), format!("status {} of action {}", pair.1, pair.0));
        }
        for (flag, count) in self.flags.iter().enumerate() {
            must(*count > 0, format!("a decision by fault flag {flag}"));
        }
        for input in [Input::Image, Input::Request, Input::Token] {
            for fault in faults_of(input) {
                let came = self.faults.contains_key(&(input, fault));
                must(came, format!("{fault:?} in an {input:?}"));
            }
        }
        missing
    }

    /// What else must come in calls of the library and runs of okvstep, and did not.
    pub fn missing_limits(&self) -> Vec<String> {
        let mut missing = Vec::new();
        for (of, most) in [("apply", limits::IMAGE), ("okvstep", limits::STEP_IMAGE)] {
            for length in [most, most + 1] {
                if !self.lengths.contains_key(&(of, length)) {
                    missing.push(format!("a next image of {length} bytes in {of}"));
                }
            }
        }
        for ended in 2..=limits::TABLES[4] {
            if !self.ended.contains_key(&ended) {
                missing.push(format!("{ended} ended leases"));
            }
        }
        for (action, kind) in reserved::every_kind() {
            if !self.reserved.contains_key(&(action, kind)) {
                missing.push(format!("{kind:?} of a reserved key, action {action}"));
            }
        }
        if self.reserved_in_history == 0 {
            missing.push("a history that refuses a lease on a reserved key".to_owned());
        }
        for place in texts::every_place() {
            for in_order in [true, false] {
                if !self.alike.contains_key(&(place, in_order)) {
                    let what = if in_order { "in order" } else { "out of order" };
                    missing.push(format!("ids alike up to {place:?}, {what}"));
                }
            }
        }
        for kind in texts::every_kind() {
            if !self.text_kinds.contains_key(&kind) {
                missing.push(format!("two texts of {kind:?}"));
            }
        }
        if !self.steps.contains_key(&45) {
            missing.push("okvstep 45".to_owned());
        }
        for end in ["end", "end bad"] {
            if !self.ends.contains_key(end) {
                missing.push(format!("okvstep's line '{end}'"));
            }
        }
        if self.used_anew == 0 {
            missing.push("the token of an ended lease whose id is used anew".to_owned());
        }
        missing
    }
}

/// Says what did not come.
pub fn all_came(missing: &[String]) -> bool {
    for what in missing {
        println!("did not come: {what}");
    }
    missing.is_empty()
}

/// Each action with each status that it can have.
pub fn every_status() -> impl Iterator<Item = (u8, u32)> {
    (1..).zip(STATUSES).flat_map(|(action, statuses)| {
        statuses.iter().chain(&[0, 45, 46]).map(move |status| (action, *status))
    })
}

/// The faults that such bytes can have.
pub fn faults_of(input: Input) -> impl Iterator<Item = Fault> {
    let faults: &[Fault] = match input {
        Input::Image => &[
            Early,
            Surplus,
            OptionByte,
            KindByte,
            SetOrder,
            TextLimit,
            SetLimit,
            NotUtf8,
            ImageLimit,
            Offset,
            Length,
            ScalarsCount,
            TableLimit,
            RecordOrder,
        ],
        Input::Request => &[
            Early, Surplus, OptionByte, KindByte, ActionByte, FlagBits, SetOrder, TextLimit, SetLimit,
            NotUtf8,
        ],
        Input::Token => &[Early, Surplus, KindByte, SetOrder, TextLimit, SetLimit, NotUtf8],
    };
    faults.iter().copied()
}

/// The table that an action can make longer.
pub fn grown_by(action: u8) -> Option<usize> {
    match action {
        12 => Some(0),
        10 | 13 => Some(1),
        14 => Some(2),
        16 => Some(3),
        5 => Some(4),
        9 => Some(5),
        _ => None,
    }
}
