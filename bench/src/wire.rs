//! The layout of document 01 read into the Rust's values and written from them, as quickly as plain Rust does it: one
//! pass each way, each text tested for UTF-8 and copied as often as the state holds it, nothing else tested, maps and
//! sets built in bulk from rows in order, and bytes written into buffers that are kept between calls.
use okv_publication::*;
use serde::de::value::Error;
use serde::de::{DeserializeSeed, Deserializer, SeqAccess, Visitor};
use serde::Deserialize;
use std::collections::{BTreeMap, BTreeSet};

pub struct Reader<'a>(pub &'a [u8]);

impl<'a> Reader<'a> {
    fn take(&mut self, n: usize) -> &'a [u8] {
        let (taken, rest) = self.0.split_at(n);
        self.0 = rest;
        taken
    }

    fn byte(&mut self) -> u8 {
        self.take(1)[0]
    }

    fn text(&mut self) -> &'a str {
        let n = self.byte();
        std::str::from_utf8(self.take(n as usize)).expect("UTF-8")
    }

    pub fn get<T: Wire>(&mut self) -> T {
        T::read(self)
    }
}

pub trait Wire {
    fn read(r: &mut Reader) -> Self;
    fn write(&self, out: &mut Vec<u8>);
}

macro_rules! numbers {
    ($($t:ident)*) => { $(
        impl Wire for $t {
            fn read(r: &mut Reader) -> Self {
                $t::from_le_bytes(r.take(size_of::<$t>()).try_into().expect("its width"))
            }

            fn write(&self, out: &mut Vec<u8>) {
                out.extend_from_slice(&self.to_le_bytes());
            }
        }
    )* };
}

macro_rules! records {
    ($($t:ident { $($field:ident)* })*) => { $(
        impl Wire for $t {
            fn read(r: &mut Reader) -> Self {
                $t { $($field: r.get()),* }
            }

            fn write(&self, out: &mut Vec<u8>) {
                $(self.$field.write(out);)*
            }
        }
    )* };
}

macro_rules! cases {
    ($t:ident: $($number:literal $case:ident { $($field:ident)* })*) => {
        impl Wire for $t {
            fn read(r: &mut Reader) -> Self {
                match r.byte() {
                    $($number => $t::$case { $($field: r.get()),* },)*
                    n => unreachable!("{n}"),
                }
            }

            fn write(&self, out: &mut Vec<u8>) {
                match self {
                    $($t::$case { $($field),* } => {
                        out.push($number);
                        $($field.write(out);)*
                    })*
                }
            }
        }
    };
}

numbers! { u16 u32 u64 }

impl Wire for String {
    fn read(r: &mut Reader) -> Self {
        r.text().to_owned()
    }

    fn write(&self, out: &mut Vec<u8>) {
        text(out, self);
    }
}

impl<T: Wire> Wire for Option<T> {
    fn read(r: &mut Reader) -> Self {
        (r.byte() != 0).then(|| r.get())
    }

    fn write(&self, out: &mut Vec<u8>) {
        out.push(u8::from(self.is_some()));
        if let Some(value) = self {
            value.write(out);
        }
    }
}

impl Wire for BTreeSet<String> {
    fn read(r: &mut Reader) -> Self {
        (0..r.byte()).map(|_| r.get::<String>()).collect()
    }

    fn write(&self, out: &mut Vec<u8>) {
        out.push(self.len() as u8);
        self.iter().for_each(|t| t.write(out));
    }
}

impl Wire for Vec<String> {
    fn read(r: &mut Reader) -> Self {
        (0..r.byte()).map(|_| r.get()).collect()
    }

    fn write(&self, out: &mut Vec<u8>) {
        out.push(self.len() as u8);
        self.iter().for_each(|t| t.write(out));
    }
}

cases! { ObjectKind: 0 Data {} 1 Manifest {} }

records! {
    AuthorityPosition { term index }
    AuthorityContext { generation position }
    RevisionToken { e_tag version }
    ObjectIdentity { revision length sha256 }
    ObjectReference { kind key length sha256 }
    PublicationIntent { object_keys manifest destination_root expected_prior_root }
    PreparedPublication { owner_generation intent }
    SnapshotClosure { manifest object_keys }
    SnapshotLeaseToken {
        lease_id tenant_id snapshot_version lease_epoch owner purpose deadline_tick closure owner_generation
        authority_position
    }
    CollectionJobToken {
        job_id owner_generation authority_position frozen_floor input_manifest destination_root range_map_epoch
        expected_collected_through output_namespace
    }
    CollectionReceipt { token output_manifest object_keys }
}

cases! { PublicationAction:
    1 ObserveCommittedFrontier { committed_frontier }
    2 SetRetentionWindow { expected_policy_epoch retention_window }
    3 ObserveRangeMapEpoch { range_map_epoch }
    4 ConfigureCollectionRoot { expected destination_root }
    5 AcquireLease { lease_id tenant_id snapshot_version owner purpose deadline_tick closure }
    6 RenewLease { lease_id expected_lease_epoch new_deadline_tick }
    7 ReleaseLease { lease_id expected_lease_epoch }
    8 AdvanceLeaseClock { expected_tick next_tick }
    9 PrepareCollection {
        job_id frozen_floor input_manifest destination_root range_map_epoch expected_collected_through output_namespace
    }
    10 PublishCollection { receipt }
    11 AbandonCollection { token }
    12 Prepare { publication_id intent }
    13 Publish { publication_id destination_root expected_prior_root manifest }
    14 Pin { pin_id expected manifest }
    15 Unpin { pin_id expected }
    16 ReserveDelete { plan_id mark_epoch key identity }
    17 RetireDelete { permit }
}

cases! { PublicationOutcome:
    0 Applied {}
    1 DeleteReserved { permit }
    2 LeaseAcquired { token }
    3 LeaseRenewed { token }
    4 LeasesExpired { lease_ids }
    5 CollectionPrepared { token }
    6 CollectionPublished { receipt }
}

fn text(out: &mut Vec<u8>, t: &str) {
    out.push(t.len() as u8);
    out.extend_from_slice(t.as_bytes());
}

/// A permit's fields are private: it is read by its derived Deserialize, straight from the bytes.
impl Wire for DeletePermit {
    fn read(r: &mut Reader) -> Self {
        Self::deserialize(r).expect("a permit")
    }

    fn write(&self, out: &mut Vec<u8>) {
        text(out, self.key());
        self.identity().write(out);
        text(out, self.plan_id());
        self.owner_generation().write(out);
        self.authority_position().write(out);
    }
}

struct Fields<'r, 'de>(&'r mut Reader<'de>);

impl<'de> SeqAccess<'de> for Fields<'_, 'de> {
    type Error = Error;

    fn next_element_seed<T: DeserializeSeed<'de>>(&mut self, seed: T) -> Result<Option<T::Value>, Error> {
        seed.deserialize(&mut *self.0).map(Some)
    }
}

impl<'de> Deserializer<'de> for &mut Reader<'de> {
    type Error = Error;

    fn deserialize_u64<V: Visitor<'de>>(self, visitor: V) -> Result<V::Value, Error> {
        visitor.visit_u64(self.get())
    }

    fn deserialize_string<V: Visitor<'de>>(self, visitor: V) -> Result<V::Value, Error> {
        visitor.visit_borrowed_str(self.text())
    }

    fn deserialize_option<V: Visitor<'de>>(self, visitor: V) -> Result<V::Value, Error> {
        match self.byte() {
            0 => visitor.visit_none(),
            _ => visitor.visit_some(self),
        }
    }

    fn deserialize_struct<V: Visitor<'de>>(
        self,
        _: &'static str,
        _: &'static [&'static str],
        visitor: V,
    ) -> Result<V::Value, Error> {
        visitor.visit_seq(Fields(self))
    }

    fn deserialize_any<V: Visitor<'de>>(self, _: V) -> Result<V::Value, Error> {
        unreachable!("a permit has no other field")
    }

    serde::forward_to_deserialize_any! {
        bool i8 i16 i32 i64 u8 u16 u32 f32 f64 char str bytes byte_buf unit unit_struct newtype_struct seq tuple
        tuple_struct map enum identifier ignored_any
    }
}

/// The rows of a table under the id that stands before each.
fn named<T: Wire>(r: &mut Reader, count: u8) -> BTreeMap<String, T> {
    (0..count).map(|_| (r.get(), r.get())).collect()
}

/// The rows of a table under the id that each holds.
fn keyed<T: Wire>(r: &mut Reader, count: u8, id: fn(&T) -> &str) -> BTreeMap<String, T> {
    let row = |r: &mut Reader| {
        let row: T = r.get();
        (id(&row).to_owned(), row)
    };
    (0..count).map(|_| row(r)).collect()
}

const ENTRY: usize = 9;
const BODIES: usize = 4 + 7 * ENTRY;

/// One body, and its entry of the contents.
fn body(out: &mut Vec<u8>, table: usize, count: usize, write: impl FnOnce(&mut Vec<u8>)) {
    let start = out.len();
    write(out);
    let length = out.len() - start;
    let entry = &mut out[4 + ENTRY * table..][..ENTRY];
    entry[..4].copy_from_slice(&(start as u32).to_le_bytes());
    entry[4..8].copy_from_slice(&(length as u32).to_le_bytes());
    entry[8] = count as u8;
}

/// An image.
impl Wire for PublicationAuthorityState {
    fn read(r: &mut Reader) -> Self {
        let head = r.take(BODIES);
        let count = |table: usize| head[4 + ENTRY * table + 8];
        PublicationAuthorityState {
            format_version: Reader(head).get(),
            revision: r.get(),
            root_intent_epoch: r.get(),
            observed_commit_frontier: r.get(),
            retention_window: r.get(),
            retention_policy_epoch: r.get(),
            policy_floor: r.get(),
            minimum_readable_version: r.get(),
            physically_collected_through: r.get(),
            lease_clock_tick: r.get(),
            lease_epoch: r.get(),
            range_map_epoch: r.get(),
            collection_root: r.get(),
            intents: named(r, count(1)),
            roots: named(r, count(2)),
            pins: named(r, count(3)),
            deletion_reservations: keyed(r, count(4), DeletePermit::key),
            leases: keyed(r, count(5), |lease: &SnapshotLeaseToken| &lease.lease_id),
            collection_jobs: keyed(r, count(6), |job: &CollectionJobToken| &job.job_id),
        }
    }

    fn write(&self, out: &mut Vec<u8>) {
        self.format_version.write(out);
        out.resize(BODIES, 0);
        body(out, 0, 1, |o| {
            self.revision.write(o);
            self.root_intent_epoch.write(o);
            self.observed_commit_frontier.write(o);
            self.retention_window.write(o);
            self.retention_policy_epoch.write(o);
            self.policy_floor.write(o);
            self.minimum_readable_version.write(o);
            self.physically_collected_through.write(o);
            self.lease_clock_tick.write(o);
            self.lease_epoch.write(o);
            self.range_map_epoch.write(o);
            self.collection_root.write(o);
        });
        body(out, 1, self.intents.len(), |o| write_named(o, &self.intents));
        body(out, 2, self.roots.len(), |o| write_named(o, &self.roots));
        body(out, 3, self.pins.len(), |o| write_named(o, &self.pins));
        body(out, 4, self.deletion_reservations.len(), |o| write_rows(o, &self.deletion_reservations));
        body(out, 5, self.leases.len(), |o| write_rows(o, &self.leases));
        body(out, 6, self.collection_jobs.len(), |o| write_rows(o, &self.collection_jobs));
    }
}

fn write_named<T: Wire>(out: &mut Vec<u8>, table: &BTreeMap<String, T>) {
    for (id, row) in table {
        id.write(out);
        row.write(out);
    }
}

fn write_rows<T: Wire>(out: &mut Vec<u8>, table: &BTreeMap<String, T>) {
    table.values().for_each(|row| row.write(out));
}

pub struct Request {
    pub context: AuthorityContext,
    /// Off in every request of the benchmark.
    pub faults: u16,
    pub action: PublicationAction,
}

records! { Request { context faults action } }

pub fn bytes(value: &impl Wire) -> Vec<u8> {
    let mut out = vec![];
    value.write(&mut out);
    out
}
