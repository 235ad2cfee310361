//! Random states built directly: also those that no history reaches.
use crate::encode::{self, Encoded};
use crate::limits::*;
use crate::permit::permit;
use crate::values::{Gen, Shape, Texts};
use okv_publication::*;
use std::collections::{BTreeMap, BTreeSet};
use std::ops::Range;

/// How many records a table is given.
#[derive(Clone, Copy, Debug, PartialEq)]
pub enum Fill {
    Few,
    OneShort,
    Full,
    /// One past the limit: no image.
    Over,
}

/// Ids and keys that share a long beginning.
pub const ALIKE: Shape = Shape { ids: 90, texts: Texts::Alike, odds: 12 };

/// Where each reservation stands in an image.
pub fn reservations(image: &Encoded) -> &[Range<usize>] {
    let count = 4 + ENTRY * 4 + 8;
    let rows = image.rows.iter().find(|rows| rows.count == count);
    &rows.expect("the rows of a table").ranges
}

impl Gen {
    /// Tables with few records, or some of them full or one short of it, within what an image can have.
    pub fn state(&mut self, crowded: bool) -> PublicationAuthorityState {
        let fills = TABLES.map(|_| match self.rng.below(4) {
            0 if crowded => Fill::OneShort,
            1 if crowded => Fill::Full,
            _ => Fill::Few,
        });
        self.state_of(fills)
    }

    /// One table filled so, and few records in the others.
    pub fn filled(&mut self, table: usize, fill: Fill) -> PublicationAuthorityState {
        let mut fills = [Fill::Few; 6];
        fills[table] = fill;
        self.state_of(fills)
    }

    fn state_of(&mut self, fills: [Fill; 6]) -> PublicationAuthorityState {
        let mut s = self.scalars();
        let mut sizes = TABLES;
        for (size, fill) in sizes.iter_mut().zip(fills) {
            *size = match fill {
                Fill::Few => self.rng.index(4),
                Fill::OneShort => *size - 1,
                Fill::Full => *size,
                Fill::Over => *size + 1,
            };
        }
        let [intents, roots, pins, reservations, leases, jobs] = sizes;
        s.roots = self.table(roots, |g| (g.id(), g.reference()));
        s.pins = self.table(pins, |g| (g.id(), g.reference()));
        s.collection_root = self.collection_root(&s);
        s.intents = self.table(intents, |g| g.prepared(&s));
        s.deletion_reservations = self.table(reservations, Self::reservation);
        s.leases = self.table(leases, |g| g.lease(&s));
        let on_root = self.rng.one_in(2);
        s.collection_jobs = self.table(jobs, |g| g.job(&s, on_root));
        while encode::image(&s).bytes.len() > IMAGE {
            drop_one(&mut s);
        }
        s
    }

    /// So many records. Where the pool of ids is too small for them it is made larger.
    pub fn table<T>(
        &mut self,
        size: usize,
        mut record: impl FnMut(&mut Self) -> (String, T),
    ) -> BTreeMap<String, T> {
        let pool = self.shape.ids;
        self.shape.ids = pool.max(size as u64 * 2);
        let mut rows = BTreeMap::new();
        while rows.len() < size {
            let (id, value) = record(self);
            rows.insert(id, value);
        }
        self.shape.ids = pool;
        rows
    }

    fn scalars(&mut self) -> PublicationAuthorityState {
        let readable = self.number();
        PublicationAuthorityState {
            format_version: if self.odd() { self.number() as u32 } else { 1 },
            revision: self.position(),
            root_intent_epoch: self.number(),
            observed_commit_frontier: self.related(readable, 5),
            retention_window: if self.odd() { None } else { Some(self.number()) },
            retention_policy_epoch: self.number(),
            policy_floor: self.related(readable, 1),
            minimum_readable_version: readable,
            physically_collected_through: self.related(0, 3),
            lease_clock_tick: self.number(),
            lease_epoch: self.number(),
            range_map_epoch: self.number(),
            ..PublicationAuthorityState::default()
        }
    }

    /// Mostly from this number up to so many more.
    fn related(&mut self, n: u64, more: u64) -> u64 {
        if self.rng.one_in(6) {
            return self.number();
        }
        self.from(n, more)
    }

    /// None, a root, or an id that is no root.
    fn collection_root(&mut self, s: &PublicationAuthorityState) -> Option<String> {
        match self.rng.below(4) {
            0 => None,
            1 => Some(self.id()),
            _ => Some(self.root_of(s)),
        }
    }

    pub fn root_of(&mut self, s: &PublicationAuthorityState) -> String {
        self.known(&s.roots, Self::id)
    }

    /// An id of the table, or another one where there is none and where it is not to fit.
    pub fn known<T>(&mut self, table: &BTreeMap<String, T>, other: impl Fn(&mut Self) -> String) -> String {
        if table.is_empty() || self.odd() {
            return other(self);
        }
        let n = self.rng.index(table.len());
        table.keys().nth(n).expect("an id of the table").clone()
    }

    pub fn intent(&mut self, s: &PublicationAuthorityState) -> PublicationIntent {
        let manifest = self.reference();
        let destination_root = if self.rng.one_in(2) { self.root_of(s) } else { self.id() };
        PublicationIntent {
            object_keys: self.keys(&manifest.key),
            manifest,
            expected_prior_root: self.prior(s.roots.get(&destination_root)),
            destination_root,
        }
    }

    /// What is stored, or something else where it is not to fit.
    pub fn prior(&mut self, stored: Option<&ObjectReference>) -> Option<ObjectReference> {
        if !self.odd() {
            return stored.cloned();
        }
        let other = self.reference();
        self.rng.pick(&[None, Some(other)])
    }

    fn prepared(&mut self, s: &PublicationAuthorityState) -> (String, PreparedPublication) {
        (self.id(), PreparedPublication { owner_generation: self.generation(), intent: self.intent(s) })
    }

    pub fn reservation(&mut self) -> (String, DeletePermit) {
        let key = self.key();
        self.reservation_of(key)
    }

    pub fn reservation_of(&mut self, key: String) -> (String, DeletePermit) {
        let (identity, plan_id) = (self.identity(), self.id());
        let permit = permit(&key, &identity, &plan_id, self.generation(), self.position());
        (key, permit)
    }

    /// A lease whose deadline is before, at or after the clock and whose version is any.
    pub fn lease(&mut self, s: &PublicationAuthorityState) -> (String, SnapshotLeaseToken) {
        let lease_id = self.id();
        let lease = SnapshotLeaseToken {
            lease_id: lease_id.clone(),
            tenant_id: self.id(),
            snapshot_version: self.from(s.minimum_readable_version, 3),
            lease_epoch: self.number(),
            owner: self.id(),
            purpose: self.id(),
            deadline_tick: self.from(s.lease_clock_tick.saturating_sub(2), 8),
            closure: self.closure(),
            owner_generation: self.generation(),
            authority_position: self.position(),
        };
        (lease_id, lease)
    }

    /// A job, perhaps on the collection root, over what its root names or another manifest.
    pub fn job(&mut self, s: &PublicationAuthorityState, on_root: bool) -> (String, CollectionJobToken) {
        let job_id = self.id();
        let destination_root = match &s.collection_root {
            Some(root) if on_root && self.rng.one_in(2) => root.clone(),
            _ => self.id(),
        };
        let input = self.prior(s.roots.get(&destination_root));
        let job = CollectionJobToken {
            job_id: job_id.clone(),
            owner_generation: self.generation(),
            authority_position: self.position(),
            frozen_floor: self.near(s.minimum_readable_version),
            input_manifest: input.unwrap_or_else(|| self.reference()),
            destination_root,
            range_map_epoch: self.near(s.range_map_epoch),
            expected_collected_through: self.near(s.physically_collected_through),
            output_namespace: self.namespace(),
        };
        (job_id, job)
    }
}

/// Takes one record from the table that has the most.
fn drop_one(s: &mut PublicationAuthorityState) {
    let sizes = sizes(s);
    let largest = (0..6).max_by_key(|table| sizes[*table]).unwrap_or(0);
    match largest {
        0 => drop(s.intents.pop_last()),
        1 => drop(s.roots.pop_last()),
        2 => drop(s.pins.pop_last()),
        3 => drop(s.deletion_reservations.pop_last()),
        4 => drop(s.leases.pop_last()),
        _ => drop(s.collection_jobs.pop_last()),
    }
}

/// The fewest and the most bytes that one filling takes in an image.
pub const FILLING: usize = 304;
pub const FILLING_MOST: usize = FILLING + (SET - 1) * (1 + KEY) + 1;

/// An intent that names nothing of the pools and takes so many bytes in an image, from `FILLING` to `FILLING_MOST`.
/// `Prepare` accepts it.
pub fn filling(n: usize, size: usize) -> (String, PreparedPublication) {
    let named =
        |key: String| ObjectReference { kind: ObjectKind::Manifest, key, length: 0, sha256: "0".repeat(64) };
    let manifest = named(format!("~{n:0>3}"));
    let mut object_keys = BTreeSet::from([manifest.key.clone()]);
    let (more, rest) = ((size - FILLING) / (1 + KEY), (size - FILLING) % (1 + KEY));
    object_keys.extend((0..more).map(|m| format!("~{n:0>3}/{m:0>123}")));
    let mut destination_root = "~".to_owned();
    match rest {
        0 => {}
        1 => destination_root.push('~'),
        _ => drop(object_keys.insert("~".repeat(rest - 1))),
    }
    let intent = PublicationIntent {
        object_keys,
        manifest,
        destination_root,
        expected_prior_root: Some(named("~".repeat(KEY))),
    };
    (format!("~{n:0>3}"), PreparedPublication { owner_generation: 1, intent })
}

/// Fillings that take so many bytes together; none where no number of them does.
pub fn fillings(bytes: usize) -> Vec<(String, PreparedPublication)> {
    let count = bytes.div_ceil(FILLING_MOST);
    if count == 0 || bytes < count * FILLING {
        return Vec::new();
    }
    (0..count).map(|n| filling(n, bytes / count + usize::from(n < bytes % count))).collect()
}
