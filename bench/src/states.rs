//! States whose images are from the smallest to nearly full ones, and for each a request of every kind.
use crate::wire::Request;
use okv_publication::*;
use std::collections::BTreeSet;

/// A name of n letters, ascending with i.
pub type Name = fn(usize, usize) -> String;

pub fn early(i: usize, n: usize) -> String {
    format!("{i:04}{}", "k".repeat(n - 4))
}

/// It differs from its neighbours at its end: the dearest to put in order.
pub fn late(i: usize, n: usize) -> String {
    format!("{}{i:04}", "k".repeat(n - 4))
}

/// How many rows each table has, and how many keys a set.
#[derive(Clone, Copy)]
pub struct Size {
    pub intents: usize,
    pub roots: usize,
    pub pins: usize,
    pub reservations: usize,
    pub leases: usize,
    pub jobs: usize,
    pub keys: usize,
}

pub const NONE: Size = Size { intents: 0, roots: 0, pins: 0, reservations: 0, leases: 0, jobs: 0, keys: 0 };
pub const SMALL: Size = Size { intents: 1, roots: 2, pins: 1, reservations: 1, leases: 1, jobs: 1, keys: 1 };
pub const MIXED: Size = Size { intents: 2, roots: 4, pins: 4, reservations: 8, leases: 4, jobs: 1, keys: 4 };
pub const KEYS: Size = Size { intents: 8, roots: 8, pins: 8, reservations: 16, leases: 26, jobs: 4, keys: 12 };
pub const ROWS: Size = Size { intents: 8, roots: 31, pins: 31, reservations: 120, leases: 20, jobs: 7, keys: 1 };

impl Size {
    /// One row of so many, and sets as large as before.
    pub fn part(self, of: usize) -> Size {
        Size {
            intents: self.intents.div_ceil(of),
            roots: self.roots.div_ceil(of),
            pins: self.pins.div_ceil(of),
            reservations: self.reservations.div_ceil(of),
            leases: self.leases.div_ceil(of),
            jobs: self.jobs.div_ceil(of),
            keys: self.keys,
        }
    }
}

const CONTEXT: AuthorityContext = AuthorityContext { generation: 1, position: AuthorityPosition { term: 1, index: 7 } };

fn hash() -> String {
    "0123456789abcdef".repeat(4)
}

/// The stored rows have even ids, so that an odd one is new and falls between two of them.
fn id(name: Name, i: usize) -> String {
    name(i, 36)
}

fn key(name: Name, i: usize) -> String {
    name(i, 100)
}

fn manifest(name: Name, i: usize) -> ObjectReference {
    ObjectReference { kind: ObjectKind::Manifest, key: key(name, i), length: 4096, sha256: hash() }
}

/// The keys of row i, its manifest's among them.
fn keys(name: Name, i: usize, count: usize) -> BTreeSet<String> {
    (0..count.max(1)).map(|k| key(name, 100 * i + k)).collect()
}

fn closure(name: Name, i: usize, count: usize) -> SnapshotClosure {
    SnapshotClosure { manifest: manifest(name, 100 * i + count / 2), object_keys: keys(name, i, count) }
}

fn intent(
    name: Name,
    i: usize,
    count: usize,
    destination_root: String,
    prior: Option<ObjectReference>,
) -> PublicationIntent {
    let SnapshotClosure { manifest, object_keys } = closure(name, i, count);
    PublicationIntent { object_keys, manifest, destination_root, expected_prior_root: prior }
}

fn identity() -> ObjectIdentity {
    ObjectIdentity {
        revision: RevisionToken { e_tag: Some("e".repeat(32)), version: None },
        length: 4096,
        sha256: hash(),
    }
}

fn reserve(s: &PublicationAuthorityState, name: Name, i: usize) -> PublicationAction {
    PublicationAction::ReserveDelete {
        plan_id: id(name, i),
        mark_epoch: s.root_intent_epoch,
        key: key(name, 8000 + i),
        identity: identity(),
    }
}

pub fn state(name: Name, size: Size) -> PublicationAuthorityState {
    if size.roots == 0 {
        return PublicationAuthorityState::default();
    }
    let mut s = PublicationAuthorityState {
        revision: CONTEXT.position,
        root_intent_epoch: 5,
        observed_commit_frontier: 1000,
        retention_window: Some(100),
        retention_policy_epoch: 1,
        policy_floor: 900,
        minimum_readable_version: 900,
        lease_clock_tick: 10,
        lease_epoch: 5,
        range_map_epoch: 1,
        collection_root: Some(id(name, 0)),
        ..Default::default()
    };
    for i in 0..size.reservations {
        s.apply(&reserve(&s, name, 2 * i), CONTEXT, PublicationAuthorityFaults::default());
    }
    for i in 0..size.roots {
        s.roots.insert(id(name, 2 * i), manifest(name, i));
    }
    for i in 0..size.pins {
        s.pins.insert(id(name, 2 * i), manifest(name, i));
    }
    for i in 0..size.intents {
        let root = id(name, 2 * (i % size.roots));
        let prior = s.roots.get(&root).cloned();
        let prepared = PreparedPublication { owner_generation: 1, intent: intent(name, i, size.keys, root, prior) };
        s.intents.insert(id(name, 2 * i), prepared);
    }
    for i in 0..size.leases {
        let lease = SnapshotLeaseToken {
            lease_id: id(name, 2 * i),
            tenant_id: "tenant".into(),
            snapshot_version: 900 + i as u64,
            lease_epoch: 5,
            owner: "owner".into(),
            purpose: "backup".into(),
            deadline_tick: if i % 2 == 0 { 20 } else { 1000 },
            closure: closure(name, i, size.keys),
            owner_generation: 1,
            authority_position: CONTEXT.position,
        };
        s.leases.insert(lease.lease_id.clone(), lease);
    }
    for i in 0..size.jobs {
        let root = id(name, 2 * (i % (size.roots - 1) + 1));
        let job = CollectionJobToken {
            job_id: id(name, 2 * i),
            owner_generation: 1,
            authority_position: CONTEXT.position,
            frozen_floor: 900,
            input_manifest: s.roots[&root].clone(),
            destination_root: root,
            range_map_epoch: 1,
            expected_collected_through: 0,
            output_namespace: format!("collected/{i:04}/"),
        };
        s.collection_jobs.insert(job.job_id.clone(), job);
    }
    s
}

/// Numbers of 32 bits in no order.
fn mixed(i: u64) -> u64 {
    let x = (i + 1).wrapping_mul(0x9E37_79B9_7F4A_7C15);
    (x ^ x >> 30).wrapping_mul(0xBF58_476D_1CE4_E5B9) >> 32
}

/// Clock steps that end all leases, whose deadlines ascend with their ids, descend, or are mixed.
pub fn ends(s: &PublicationAuthorityState) -> [Case; 3] {
    let deadlines: [(&'static str, fn(u64) -> u64); 3] = [
        ("all leases end, ascending", |i| 1000 + i),
        ("all leases end, descending", |i| 1000 - i),
        ("all leases end, mixed", mixed),
    ];
    deadlines.map(|(name, deadline)| {
        let mut state = s.clone();
        for (i, lease) in (0..).zip(state.leases.values_mut()) {
            lease.deadline_tick = deadline(i);
        }
        let action = PublicationAction::AdvanceLeaseClock { expected_tick: s.lease_clock_tick, next_tick: u64::MAX };
        Case { name, state, request: Request { context: CONTEXT, faults: 0, action } }
    })
}

/// A call that is measured: on which state, and what it asks.
pub struct Case {
    pub name: &'static str,
    pub state: PublicationAuthorityState,
    pub request: Request,
}

pub fn middle<T>(rows: impl ExactSizeIterator<Item = T>) -> Option<T> {
    let half = rows.len() / 2;
    { rows }.nth(half)
}

/// A call of every kind, on the row in the middle of its table or with a new one that goes there. Kinds that the state
/// does not accept are left out; the last is a refusal, of a lease that is not there.
pub fn cases(s: &PublicationAuthorityState, name: Name, size: Size) -> Vec<Case> {
    use PublicationAction::*;
    let between = |rows: usize| id(name, rows / 2 * 2 + 1);
    let lease = middle(s.leases.values());
    let job = middle(s.collection_jobs.values());
    // keys of new rows stand after all that are reserved
    let fresh = 90;
    let prepare = |keys: usize| {
        let root = id(name, 0);
        let prior = s.roots.get(&root).cloned();
        Prepare { publication_id: between(size.intents), intent: intent(name, fresh, keys, root, prior) }
    };
    let actions = [
        ("observe_committed_frontier", Some(ObserveCommittedFrontier { committed_frontier: 1050 })),
        (
            "set_retention_window",
            Some(SetRetentionWindow { expected_policy_epoch: s.retention_policy_epoch, retention_window: 90 }),
        ),
        ("observe_range_map_epoch", Some(ObserveRangeMapEpoch { range_map_epoch: 2 })),
        (
            "configure_collection_root",
            middle(s.roots.keys()).map(|root| ConfigureCollectionRoot {
                expected: s.collection_root.clone(),
                destination_root: root.clone(),
            }),
        ),
        (
            "acquire_lease",
            Some(AcquireLease {
                lease_id: between(size.leases),
                tenant_id: "tenant".into(),
                snapshot_version: 950,
                owner: "owner".into(),
                purpose: "backup".into(),
                deadline_tick: 1000,
                closure: closure(name, fresh, size.keys),
            }),
        ),
        (
            "renew_lease",
            lease.map(|l| RenewLease {
                lease_id: l.lease_id.clone(),
                expected_lease_epoch: l.lease_epoch,
                new_deadline_tick: 2000,
            }),
        ),
        (
            "release_lease",
            lease.map(|l| ReleaseLease { lease_id: l.lease_id.clone(), expected_lease_epoch: l.lease_epoch }),
        ),
        ("advance_lease_clock", Some(AdvanceLeaseClock { expected_tick: s.lease_clock_tick, next_tick: 20 })),
        (
            "prepare_collection",
            s.collection_root.as_ref().map(|root| PrepareCollection {
                job_id: between(size.jobs),
                frozen_floor: 900,
                input_manifest: s.roots[root].clone(),
                destination_root: root.clone(),
                range_map_epoch: 1,
                expected_collected_through: 0,
                output_namespace: "collected/new/".into(),
            }),
        ),
        (
            "publish_collection",
            job.map(|token| {
                let inside = |k: &String| token.output_namespace.clone() + k;
                let mut output_manifest = manifest(name, 100 * fresh);
                output_manifest.key = inside(&output_manifest.key);
                let object_keys = keys(name, fresh, size.keys).iter().map(inside).collect();
                PublishCollection { receipt: CollectionReceipt { token: token.clone(), output_manifest, object_keys } }
            }),
        ),
        ("abandon_collection", job.map(|token| AbandonCollection { token: token.clone() })),
        ("prepare", Some(prepare(size.keys))),
        ("prepare, 16 keys", Some(prepare(16))),
        (
            "publish",
            middle(s.intents.iter()).map(|(id, p)| Publish {
                publication_id: id.clone(),
                destination_root: p.intent.destination_root.clone(),
                expected_prior_root: p.intent.expected_prior_root.clone(),
                manifest: p.intent.manifest.clone(),
            }),
        ),
        ("pin", Some(Pin { pin_id: between(size.pins), expected: None, manifest: manifest(name, fresh) })),
        ("unpin", middle(s.pins.iter()).map(|(id, r)| Unpin { pin_id: id.clone(), expected: r.clone() })),
        ("reserve_delete", Some(reserve(s, name, size.reservations / 2 * 2 + 1))),
        ("retire_delete", middle(s.deletion_reservations.values()).map(|p| RetireDelete { permit: p.clone() })),
        (
            "refusal",
            Some(RenewLease { lease_id: between(size.leases), expected_lease_epoch: 1, new_deadline_tick: 2000 }),
        ),
    ];
    let mut all = vec![];
    for (name, action) in actions {
        let Some(action) = action else { continue };
        let mut state = s.clone();
        match &action {
            ConfigureCollectionRoot { .. } => state.collection_jobs.clear(),
            PublishCollection { receipt } => state.collection_root = Some(receipt.token.destination_root.clone()),
            _ => {}
        }
        let accepted = state.clone().apply(&action, CONTEXT, PublicationAuthorityFaults::default()).outcome.is_some();
        if accepted != name.starts_with("refusal") {
            all.push(Case { name, state, request: Request { context: CONTEXT, faults: 0, action } });
        } else {
            assert!(size.leases == 0, "{name} is not as meant: {action:?}");
        }
    }
    all
}
