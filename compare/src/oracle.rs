//! What documents 01 and 02 and the Rust answer to a call over bytes.
use crate::decode::{self, Read, Request};
use crate::{encode, expiry, limits, reserved};
use okv_publication::*;

/// The status, and what was written; nothing after a refusal.
#[derive(Clone, Debug, Default, PartialEq)]
pub struct Answer {
    pub status: u32,
    pub next: Vec<u8>,
    pub outcome: Vec<u8>,
}

/// What a request does to a state, before anything is lent for it.
pub enum Transition {
    Refused(u32),
    Accepted { state: PublicationAuthorityState, next: Vec<u8>, outcome: Vec<u8> },
}

impl Transition {
    /// What is answered with so many bytes lent for the image and for the outcome.
    pub fn answer(&self, room: usize, outcome_room: usize) -> Answer {
        let refused = |status| Answer { status, ..Answer::default() };
        match self {
            Transition::Refused(status) => refused(*status),
            Transition::Accepted { next, .. } if next.len() > room.min(limits::IMAGE) => refused(45),
            Transition::Accepted { outcome, .. } if outcome.len() > outcome_room => refused(46),
            Transition::Accepted { next, outcome, .. } => {
                Answer { status: 0, next: next.clone(), outcome: outcome.clone() }
            }
        }
    }

    /// The state that is left with so many bytes lent; none where the old one stays.
    pub fn left(self, room: usize, outcome_room: usize) -> Option<PublicationAuthorityState> {
        let status = self.answer(room, outcome_room).status;
        match self {
            Transition::Accepted { state, .. } if status == 0 => Some(state),
            _ => None,
        }
    }
}

pub fn transition(state: &Read<PublicationAuthorityState>, request: &Read<Request>) -> Transition {
    let Ok(state) = state else {
        return Transition::Refused(40);
    };
    let request = match request {
        Ok(request) => request,
        Err(fault) => return Transition::Refused(fault.number()),
    };
    let (next, outcome) = match step(state, request) {
        Ok(step) => step,
        Err(status) => return Transition::Refused(status),
    };
    if limits::over(&next).is_some() {
        return Transition::Refused(44);
    }
    let (bytes, outcome) = (encode::image(&next).bytes, encode::outcome(&outcome).bytes);
    Transition::Accepted { state: next, next: bytes, outcome }
}

/// The next state and the outcome, or the status of a refusal: the Rust's, as document 02 changes it.
fn step(
    state: &PublicationAuthorityState,
    request: &Request,
) -> Result<(PublicationAuthorityState, PublicationOutcome), u32> {
    let mut next = state.clone();
    let answer = next.apply(&request.action, request.context, request.faults);
    let Some(outcome) = answer.outcome else {
        assert_eq!(&next, state, "a refusal changed the Rust's state");
        return Err(answer.status as u32);
    };
    if reserved::refuses(state, &request.action) {
        return Err(10);
    }
    Ok((next, expiry::in_order(outcome, state)))
}

pub fn validate(state: &Read<PublicationAuthorityState>, token: &Read<SnapshotLeaseToken>) -> u32 {
    let Ok(state) = state else { return 40 };
    match token {
        Err(fault) => fault.number(),
        Ok(token) => match state.validate_active_snapshot_lease(token) {
            Ok(()) => 0,
            Err(error) => error as u32 + 1,
        },
    }
}

pub fn test(state: &Read<PublicationAuthorityState>) -> u32 {
    match state {
        Ok(_) => 0,
        Err(_) => 40,
    }
}

/// The default image, or 45 where it does not fit.
pub fn default_image(room: usize) -> (u32, Vec<u8>) {
    let image = encode::image(&PublicationAuthorityState::default()).bytes;
    if image.len() > room {
        return (45, Vec::new());
    }
    (0, image)
}

/// The fault flags without which something else would be answered or left.
pub fn deciding_flags(state: &PublicationAuthorityState, request: &Request) -> Vec<usize> {
    let with = |flags: u16| step(state, &Request { faults: decode::faults(flags), ..request.clone() });
    let flags = encode::flags(request.faults);
    let on = (0..limits::FLAGS).filter(|bit| flags >> bit & 1 == 1);
    on.filter(|bit| with(flags) != with(flags & !(1 << bit))).collect()
}
