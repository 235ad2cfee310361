//! The library's calls, and the Rust doing the same.
use crate::wire::{Reader, Request, Wire};
use okv_publication::*;

include!(env!("OKV_RS"));

/// The slices that are lent to every call.
pub struct Lent {
    pub next: [u8; 65535],
    pub outcome: [u8; 8192],
}

pub fn test(image: &[u8]) -> u32 {
    unsafe { okv_test(image.as_ptr(), image.len()) }
}

pub fn validate(image: &[u8], token: &[u8]) -> u32 {
    unsafe { okv_validate(image.as_ptr(), image.len(), token.as_ptr(), token.len()) }
}

/// The number answered and both lengths.
pub fn apply(image: &[u8], request: &[u8], lent: &mut Lent) -> (u32, usize, usize) {
    let (mut n, mut m) = (0, 0);
    let (next, outcome) = (&mut lent.next, &mut lent.outcome);
    let status = unsafe {
        okv_apply(
            image.as_ptr(),
            image.len(),
            request.as_ptr(),
            request.len(),
            next.as_mut_ptr(),
            next.len(),
            outcome.as_mut_ptr(),
            outcome.len(),
            &mut n,
            &mut m,
        )
    };
    (status, n, m)
}

/// Whether a lease that is asked for, or renewed, names a reserved key.
fn names_reserved(state: &PublicationAuthorityState, action: &PublicationAction) -> bool {
    let closure = match action {
        PublicationAction::AcquireLease { closure, .. } => Some(closure),
        PublicationAction::RenewLease { lease_id, .. } => {
            state.leases.get(lease_id).map(|lease| &lease.closure)
        }
        _ => None,
    };
    let reserved = |key| state.deletion_reservations.contains_key(key);
    closure.is_some_and(|closure| closure.object_keys.iter().any(reserved))
}

/// The Rust's `apply` with what the library does beside it. It looks for reserved keys of a lease: no call here has any. And
/// it lists ended leases by deadline, then epoch, then id; the Rust lists them by id, and a sort that keeps equal ones as they
/// stand compares no id.
fn rust_apply_to(state: &mut PublicationAuthorityState, request: &Request) -> PublicationTransition {
    assert!(!names_reserved(state, &request.action), "a lease on a reserved key");
    let ended = match request.action {
        PublicationAction::AdvanceLeaseClock { next_tick, .. } => {
            let ended = state.leases.values().filter(|lease| lease.deadline_tick <= next_tick);
            ended.map(|lease| (lease.deadline_tick, lease.lease_epoch)).collect()
        }
        _ => vec![],
    };
    let mut t = state.apply(&request.action, request.context, PublicationAuthorityFaults::default());
    if let Some(PublicationOutcome::LeasesExpired { lease_ids }) = &mut t.outcome {
        let mut rows: Vec<_> = ended.into_iter().zip(std::mem::take(lease_ids)).collect();
        rows.sort_by_key(|(row, _)| *row);
        *lease_ids = rows.into_iter().map(|(_, id)| id).collect();
    }
    t
}

/// The Rust's job on the same bytes. Where it accepts, it fills both slices.
pub fn rust_apply(image: &[u8], request: &[u8], next: &mut Vec<u8>, outcome: &mut Vec<u8>) -> u32 {
    next.clear();
    outcome.clear();
    let mut state: PublicationAuthorityState = Reader(image).get();
    let t = rust_apply_to(&mut state, &Reader(request).get());
    if let Some(o) = t.outcome {
        state.write(next);
        o.write(outcome);
    }
    t.status as u32
}

pub fn rust_validate(image: &[u8], token: &[u8]) -> bool {
    let state: PublicationAuthorityState = Reader(image).get();
    state.validate_active_snapshot_lease(&Reader(token).get()).is_ok()
}

/// The Rust's job on a state that it has in memory and keeps.
pub fn rust_step(
    state: &PublicationAuthorityState,
    request: &Request,
) -> (PublicationAuthorityState, PublicationTransition) {
    let mut next = state.clone();
    let t = rust_apply_to(&mut next, request);
    (next, t)
}
