//! Request K3 of document 02: no lease on an object about to go. `AcquireLease` whose closure names a reserved key, and
//! `RenewLease` of a stored lease that names one, answer 10 where the Rust accepts them, so right after 24, the last test
//! of both, and before 44 to 46. No fault flag skips it.
use crate::actions::{Flags, ALL_FLAGS};
use crate::decode::{self, Request};
use crate::encode;
use crate::limits::*;
use crate::values::Gen;
use okv_publication::*;
use std::collections::BTreeMap;

/// Whether an action that the Rust accepts is refused with 10.
pub fn refuses(state: &PublicationAuthorityState, action: &PublicationAction) -> bool {
    match action {
        PublicationAction::AcquireLease { closure, .. } => names_reserved(state, closure),
        PublicationAction::RenewLease { lease_id, .. } => {
            names_reserved(state, &state.leases[lease_id].closure)
        }
        _ => false,
    }
}

/// Whether a live lease names a reserved key: at no moment of a history from the default state with flags off.
pub fn stands(state: &PublicationAuthorityState) -> bool {
    state.leases.values().any(|lease| names_reserved(state, &lease.closure))
}

fn names_reserved(state: &PublicationAuthorityState, closure: &SnapshotClosure) -> bool {
    !reserved_of(state, closure).is_empty()
}

/// The reserved keys that a closure names. It names its `object_keys`; the manifest's key need not be one of them in a
/// loaded lease.
fn reserved_of<'a>(state: &PublicationAuthorityState, closure: &'a SnapshotClosure) -> Vec<&'a String> {
    let reserved = |key: &&String| state.deletion_reservations.contains_key(*key);
    closure.object_keys.iter().filter(reserved).collect()
}

/// The actions that the rule is about, and one that it is not about.
pub const ACQUIRE: u8 = 5;
pub const RENEW: u8 = 6;
pub const RELEASE: u8 = 7;

/// Where one of several stands.
#[derive(Clone, Copy, Debug, Eq, Ord, PartialEq, PartialOrd)]
pub enum Place {
    First,
    Middle,
    Last,
    Only,
}

/// What a call about a lease can be, by what it answers.
#[derive(Clone, Copy, Debug, Eq, Ord, PartialEq, PartialOrd)]
pub enum Kind {
    /// 10 for one key: where it stands in the closure and in the table, and whether it is the manifest's.
    InClosure(Place),
    InTable(Place),
    OfManifest(bool),
    /// 10 for several keys.
    Several,
    /// 10 with these fault flags.
    Flags(u16),
    /// 10 where else 44 would come, 45, or 46.
    FullTable,
    NoRoom,
    NoOutcomeRoom,
    /// This in place of 10, by a test that comes before.
    Before(u32),
    /// 0, though the manifest's key is reserved: the closure does not name it.
    NotNamed,
    /// 0, though the closure names a reserved key: the lease is released.
    Named,
}

/// Each action with each kind of call that must come.
pub fn every_kind() -> Vec<(u8, Kind)> {
    let mut kinds = vec![(ACQUIRE, Kind::FullTable), (RENEW, Kind::NotNamed), (RELEASE, Kind::Named)];
    kinds.extend([2, 18, 21, 19, 20, 24].map(|status| (ACQUIRE, Kind::Before(status))));
    kinds.extend([2, 23, 24].map(|status| (RENEW, Kind::Before(status))));
    let mut both = vec![Kind::Several, Kind::NoRoom, Kind::NoOutcomeRoom];
    both.extend([true, false].map(Kind::OfManifest));
    for place in [Place::First, Place::Middle, Place::Last, Place::Only] {
        both.extend([Kind::InClosure(place), Kind::InTable(place)]);
    }
    both.extend(flag_sets().map(Kind::Flags));
    kinds.extend(both.iter().flat_map(|kind| [(ACQUIRE, *kind), (RENEW, *kind)]));
    kinds
}

/// No fault flag, all, and each alone.
pub fn flag_sets() -> impl Iterator<Item = u16> {
    [0, ALL_FLAGS].into_iter().chain((0..FLAGS).map(|bit| 1 << bit))
}

/// What a call is that had this answer, with so many bytes lent for the image and for the outcome.
pub fn kinds(
    state: &PublicationAuthorityState,
    request: &Request,
    lent: (usize, usize),
    status: u32,
) -> Vec<Kind> {
    let Some(closure) = closure_of(state, &request.action) else { return Vec::new() };
    let table = &state.deletion_reservations;
    let keys = reserved_of(state, closure);
    match (status, &keys[..]) {
        (0, []) if table.contains_key(&closure.manifest.key) => return vec![Kind::NotNamed],
        (_, []) => return Vec::new(),
        (0, _) => return vec![Kind::Named],
        (10, _) => {}
        _ => return vec![Kind::Before(status)],
    }
    let mut kinds = vec![Kind::Flags(encode::flags(request.faults))];
    match keys[..] {
        [key] => kinds.extend([
            Kind::InClosure(place(closure.object_keys.iter(), key)),
            Kind::InTable(place(table.keys(), key)),
            Kind::OfManifest(*key == closure.manifest.key),
        ]),
        _ => kinds.push(Kind::Several),
    }
    if state.leases.len() == TABLES[4] {
        kinds.push(Kind::FullTable);
    }
    match lent {
        (0, _) => kinds.push(Kind::NoRoom),
        (_, 0) => kinds.push(Kind::NoOutcomeRoom),
        _ => {}
    }
    kinds
}

/// The closure that a new lease is to have, or that a stored one has.
fn closure_of<'a>(
    state: &'a PublicationAuthorityState,
    action: &'a PublicationAction,
) -> Option<&'a SnapshotClosure> {
    match action {
        PublicationAction::AcquireLease { closure, .. } => Some(closure),
        PublicationAction::RenewLease { lease_id, .. } | PublicationAction::ReleaseLease { lease_id, .. } => {
            state.leases.get(lease_id).map(|lease| &lease.closure)
        }
        _ => None,
    }
}

fn place<'a>(mut keys: impl ExactSizeIterator<Item = &'a String>, key: &String) -> Place {
    let last = keys.len() - 1;
    match keys.position(|other| other == key) {
        _ if last == 0 => Place::Only,
        Some(0) => Place::First,
        Some(n) if n == last => Place::Last,
        _ => Place::Middle,
    }
}

impl Gen {
    /// An action about a lease with these flags, and a state built directly in which keys that the lease names are
    /// reserved. Now and then a test that comes before refuses it.
    pub fn on_reserved(&mut self, action: u8, flags: u16) -> (PublicationAuthorityState, Request) {
        let mut state = self.state(false);
        state.format_version = 1;
        let leases = self.rng.pick(&[1, 2, 3, TABLES[4]]);
        state.leases = self.table(leases, |g| g.lease(&state));
        let mut request = self.request_of(action, &state, Flags::Off);
        request.faults = decode::faults(flags);
        let mut wanted = self.closure();
        state.deletion_reservations = self.reserving(&mut wanted, action);
        let late = self.rng.one_in(6).then_some(state.lease_clock_tick);
        match &mut request.action {
            PublicationAction::AcquireLease { deadline_tick, closure, .. } => {
                *deadline_tick = late.unwrap_or(*deadline_tick);
                *closure = wanted;
            }
            PublicationAction::RenewLease { lease_id, new_deadline_tick, .. } => {
                *new_deadline_tick = late.unwrap_or(*new_deadline_tick);
                state.leases.entry(lease_id.clone()).and_modify(|lease| lease.closure = wanted);
            }
            PublicationAction::ReleaseLease { lease_id, .. } => {
                state.leases.entry(lease_id.clone()).and_modify(|lease| lease.closure = wanted);
            }
            _ => {}
        }
        (state, request)
    }

    /// Reservations of all keys of a closure, of one, or of its manifest's, which that of a stored lease need not name;
    /// and some of other keys.
    fn reserving(&mut self, closure: &mut SnapshotClosure, action: u8) -> BTreeMap<String, DeletePermit> {
        let others = self.rng.pick(&[0, 2, 20]);
        let mut table = self.table(others, Self::reservation);
        table.retain(|key, _| !closure.object_keys.contains(key));
        let keys: Vec<String> = closure.object_keys.iter().cloned().collect();
        let manifest = closure.manifest.key.clone();
        let chosen = match self.rng.below(4) {
            0 => keys,
            1 if action == RENEW && self.rng.one_in(2) => {
                closure.object_keys.remove(&manifest);
                vec![manifest]
            }
            2 | 3 if !keys.is_empty() => vec![self.rng.pick(&keys)],
            _ => vec![manifest],
        };
        table.extend(chosen.into_iter().map(|key| self.reservation_of(key)));
        table
    }
}
