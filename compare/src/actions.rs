//! Random requests that fit a state, with now and then a value that does not.
use crate::decode::{self, Request};
use crate::limits::*;
use crate::permit::permit;
use crate::values::{clip, Gen};
use okv_publication::*;

/// Which fault flags a request has.
#[derive(Clone, Copy, Debug, PartialEq)]
pub enum Flags {
    Off,
    Any,
}

pub const ACTIONS: u8 = 17;
pub const ALL_FLAGS: u16 = (1 << FLAGS) - 1;

/// An action in an ordinary context, flags off.
pub fn plain(action: PublicationAction) -> Request {
    let position = AuthorityPosition { term: 1, index: 1 };
    let context = AuthorityContext { generation: 1, position };
    Request { context, faults: PublicationAuthorityFaults::default(), action }
}

impl Gen {
    pub fn request(&mut self, s: &PublicationAuthorityState, flags: Flags) -> Request {
        let action = 1 + self.rng.index(ACTIONS as usize) as u8;
        self.request_of(action, s, flags)
    }

    pub fn request_of(&mut self, action: u8, s: &PublicationAuthorityState, flags: Flags) -> Request {
        let action = self.action(action, s);
        let context = self.context(owner(s, &action));
        Request { action, context, faults: self.faults(flags) }
    }

    fn context(&mut self, owner: Option<u64>) -> AuthorityContext {
        let generation = owner.unwrap_or(1);
        let index = self.number();
        AuthorityContext {
            generation: self.near(generation),
            position: AuthorityPosition { term: self.rng.below(3), index },
        }
    }

    /// None, each alone, all together, or some.
    pub fn faults(&mut self, flags: Flags) -> PublicationAuthorityFaults {
        let bits = match (flags, self.rng.below(4)) {
            (Flags::Off, _) | (_, 0) => 0,
            (_, 1) => 1 << self.rng.index(FLAGS),
            (_, 2) => ALL_FLAGS,
            _ => self.rng.next() as u16 & ALL_FLAGS,
        };
        decode::faults(bits)
    }

    fn action(&mut self, action: u8, s: &PublicationAuthorityState) -> PublicationAction {
        use PublicationAction::*;
        match action {
            1 => ObserveCommittedFrontier { committed_frontier: self.from(s.observed_commit_frontier, 4) },
            2 => SetRetentionWindow {
                expected_policy_epoch: self.near(s.retention_policy_epoch),
                retention_window: self.number().saturating_sub(1),
            },
            3 => ObserveRangeMapEpoch { range_map_epoch: self.from(s.range_map_epoch, 2) },
            4 => ConfigureCollectionRoot {
                expected: if self.odd() { self.maybe_text() } else { s.collection_root.clone() },
                destination_root: self.root_of(s),
            },
            5 => self.acquire_lease(s),
            6 => {
                let (lease_id, epoch, deadline) = self.lease_of(s);
                let after = deadline.max(s.lease_clock_tick).saturating_add(1);
                RenewLease {
                    lease_id,
                    expected_lease_epoch: self.near(epoch),
                    new_deadline_tick: self.from(after, 4),
                }
            }
            7 => {
                let (lease_id, epoch, _) = self.lease_of(s);
                ReleaseLease { lease_id, expected_lease_epoch: self.near(epoch) }
            }
            8 => AdvanceLeaseClock {
                expected_tick: self.near(s.lease_clock_tick),
                next_tick: self.from(s.lease_clock_tick.saturating_add(1), 4),
            },
            9 => self.prepare_collection(s),
            10 => PublishCollection { receipt: self.receipt(s) },
            11 => AbandonCollection { token: self.job_of(s) },
            12 => Prepare { publication_id: self.fresh(&s.intents, Self::id), intent: self.intent(s) },
            13 => self.publish(s),
            14 => {
                let pin_id = if self.rng.one_in(2) { self.known(&s.pins, Self::id) } else { self.id() };
                let expected = self.prior(s.pins.get(&pin_id));
                Pin { pin_id, expected, manifest: self.reference() }
            }
            15 => {
                let pin_id = self.known(&s.pins, Self::id);
                let expected = self.prior(s.pins.get(&pin_id));
                Unpin { pin_id, expected: expected.unwrap_or_else(|| self.reference()) }
            }
            16 => ReserveDelete {
                plan_id: self.id(),
                mark_epoch: self.near(s.root_intent_epoch),
                key: self.key_of(s),
                identity: self.identity(),
            },
            _ => RetireDelete { permit: self.permit_of(s) },
        }
    }

    fn acquire_lease(&mut self, s: &PublicationAuthorityState) -> PublicationAction {
        let (low, high) = (s.minimum_readable_version.max(1), s.observed_commit_frontier);
        let versions = high.saturating_sub(low).saturating_add(1);
        let snapshot_version = match self.rng.below(12) {
            0 => low - 1,
            1 => high.saturating_add(1),
            _ => self.from(low, versions),
        };
        PublicationAction::AcquireLease {
            lease_id: self.fresh(&s.leases, Self::id),
            tenant_id: self.id(),
            snapshot_version,
            owner: self.id(),
            purpose: self.id(),
            deadline_tick: self.from(s.lease_clock_tick.saturating_add(1), 6),
            closure: self.closure(),
        }
    }

    /// A stored lease's token, or one that differs from it in one field, or one of another lease.
    pub fn token(&mut self, s: &PublicationAuthorityState) -> SnapshotLeaseToken {
        let id = self.known(&s.leases, Self::id);
        let Some(lease) = s.leases.get(&id) else {
            return self.lease(s).1;
        };
        let mut token = lease.clone();
        match self.rng.below(20) {
            0 => token.lease_id = self.id(),
            1 => token.tenant_id = self.id(),
            2 => token.snapshot_version = token.snapshot_version.wrapping_add(1),
            3 => token.lease_epoch = token.lease_epoch.wrapping_sub(1),
            4 => token.owner = self.id(),
            5 => token.purpose = self.id(),
            6 => token.deadline_tick = token.deadline_tick.wrapping_add(1),
            7 => token.closure.manifest.length = token.closure.manifest.length.wrapping_add(1),
            8 => drop(token.closure.object_keys.insert(self.key())),
            9 => drop(token.closure.object_keys.pop_last()),
            10 => token.owner_generation = token.owner_generation.wrapping_add(1),
            11 => token.authority_position.term = token.authority_position.term.wrapping_add(1),
            12 => token.authority_position.index = token.authority_position.index.wrapping_add(1),
            _ => {}
        }
        token
    }

    /// A lease's id, epoch and deadline.
    fn lease_of(&mut self, s: &PublicationAuthorityState) -> (String, u64, u64) {
        let id = self.known(&s.leases, Self::id);
        match s.leases.get(&id) {
            Some(lease) => (id, lease.lease_epoch, lease.deadline_tick),
            None => (id, self.number(), self.number()),
        }
    }

    fn prepare_collection(&mut self, s: &PublicationAuthorityState) -> PublicationAction {
        let destination_root = match &s.collection_root {
            Some(root) if !self.odd() => root.clone(),
            _ => self.id(),
        };
        let input = self.prior(s.roots.get(&destination_root));
        PublicationAction::PrepareCollection {
            job_id: self.fresh(&s.collection_jobs, Self::id),
            frozen_floor: self.near(s.minimum_readable_version),
            input_manifest: input.unwrap_or_else(|| self.reference()),
            destination_root,
            range_map_epoch: self.near(s.range_map_epoch),
            expected_collected_through: self.near(s.physically_collected_through),
            output_namespace: self.namespace(),
        }
    }

    /// A stored job, or one that differs from it in one number or in its input, or one that is not stored.
    fn job_of(&mut self, s: &PublicationAuthorityState) -> CollectionJobToken {
        let id = self.known(&s.collection_jobs, Self::id);
        let mut job = match s.collection_jobs.get(&id) {
            Some(job) => job.clone(),
            None => self.job(s, true).1,
        };
        if self.odd() {
            match self.rng.below(5) {
                0 => job.frozen_floor = job.frozen_floor.wrapping_add(1),
                1 => job.owner_generation = job.owner_generation.wrapping_add(1),
                2 => job.authority_position.index = job.authority_position.index.wrapping_add(1),
                3 => job.input_manifest = self.reference(),
                _ => job.output_namespace = self.namespace(),
            }
        }
        job
    }

    /// The output of a job, mostly below its namespace; a key equal to the namespace is below it.
    fn receipt(&mut self, s: &PublicationAuthorityState) -> CollectionReceipt {
        let token = self.job_of(s);
        let namespace = &token.output_namespace;
        let reserved = s.deletion_reservations.keys().find(|key| key.starts_with(namespace));
        let below = |g: &mut Self| match (g.rng.below(12), reserved) {
            (0, _) => namespace.clone(),
            (1, _) if g.odd() => g.key(),
            (2 | 3, Some(key)) => key.clone(),
            _ => clip(namespace.clone() + &g.key(), KEY),
        };
        let mut output_manifest = self.reference();
        output_manifest.key = below(self);
        if self.odd() {
            output_manifest = token.input_manifest.clone();
        }
        let mut object_keys: std::collections::BTreeSet<String> =
            (0..self.rng.below(3)).map(|_| below(self)).collect();
        if !self.odd() {
            object_keys.insert(output_manifest.key.clone());
        }
        CollectionReceipt { token, output_manifest, object_keys }
    }

    /// A stored intent's own values, one of them changed now and then, or any values.
    fn publish(&mut self, s: &PublicationAuthorityState) -> PublicationAction {
        let publication_id = self.known(&s.intents, Self::id);
        let mut intent = match s.intents.get(&publication_id) {
            Some(prepared) => prepared.intent.clone(),
            None => self.intent(s),
        };
        if self.odd() {
            match self.rng.below(3) {
                0 => intent.manifest = self.reference(),
                1 => intent.destination_root = self.id(),
                _ => intent.expected_prior_root = self.prior(intent.expected_prior_root.as_ref()),
            }
        }
        PublicationAction::Publish {
            publication_id,
            destination_root: intent.destination_root,
            expected_prior_root: intent.expected_prior_root,
            manifest: intent.manifest,
        }
    }

    /// A key that something names, or any key.
    fn key_of(&mut self, s: &PublicationAuthorityState) -> String {
        let named = match self.rng.below(10) {
            0 => s.intents.values().flat_map(|p| &p.intent.object_keys).next_back(),
            1 => s.leases.values().flat_map(|l| &l.closure.object_keys).next_back(),
            2 => s.collection_jobs.values().map(|j| &j.input_manifest.key).next(),
            3 => s.collection_jobs.values().map(|j| &j.output_namespace).next(),
            4 => s.deletion_reservations.keys().next(),
            5 => s.roots.values().chain(s.pins.values()).map(|r| &r.key).next(),
            _ => None,
        };
        match named {
            Some(key) => key.clone(),
            None => self.fresh(&s.deletion_reservations, Self::key),
        }
    }

    /// A stored permit, or one that differs from it in one field, or one that is not stored.
    fn permit_of(&mut self, s: &PublicationAuthorityState) -> DeletePermit {
        let key = self.known(&s.deletion_reservations, Self::key);
        let Some(stored) = s.deletion_reservations.get(&key) else {
            return permit(&key, &self.identity(), &self.id(), 1, self.position());
        };
        if !self.rng.one_in(3) {
            return stored.clone();
        }
        let mut identity = stored.identity().clone();
        let mut plan_id = stored.plan_id().to_owned();
        let mut generation = stored.owner_generation();
        let mut position = stored.authority_position();
        match self.rng.below(8) {
            // an absent tag is not an empty one
            0 => identity.revision.e_tag = other(&identity.revision.e_tag),
            1 => identity.revision.version = other(&identity.revision.version),
            2 => identity.length = identity.length.wrapping_add(1),
            3 => identity.sha256 = self.hash(),
            4 => plan_id = self.id(),
            5 => generation = generation.wrapping_add(1),
            6 => position.term = position.term.wrapping_add(1),
            _ => position.index = position.index.wrapping_add(1),
        }
        permit(&key, &identity, &plan_id, generation, position)
    }
}

fn other(tag: &Option<String>) -> Option<String> {
    match tag {
        None => Some(String::new()),
        Some(_) => None,
    }
}

/// The generation that an action's context should have.
fn owner(s: &PublicationAuthorityState, action: &PublicationAction) -> Option<u64> {
    match action {
        PublicationAction::Publish { publication_id, .. } => {
            s.intents.get(publication_id).map(|p| p.owner_generation)
        }
        PublicationAction::PublishCollection { receipt } => Some(receipt.token.owner_generation),
        PublicationAction::AbandonCollection { token } => Some(token.owner_generation),
        PublicationAction::RetireDelete { permit } => Some(permit.owner_generation()),
        _ => None,
    }
}
