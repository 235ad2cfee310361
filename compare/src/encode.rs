//! The bytes of images, requests, tokens and outcomes, written from the layout of document 01, with the places in them
//! at which damage is aimed.
use crate::decode::Request;
use crate::limits::*;
use okv_publication::*;
use std::collections::BTreeMap;
use std::ops::Range;

/// What stands at a place.
#[derive(Clone, Copy, Debug, PartialEq)]
pub enum What {
    /// The length byte of a text with this limit.
    Text(usize),
    SetCount,
    OptionByte,
    KindByte,
    ActionByte,
    Flags,
    Number,
}

#[derive(Clone, Debug, Default)]
pub struct Encoded {
    pub bytes: Vec<u8>,
    pub places: Vec<(usize, What)>,
    pub rows: Vec<Rows>,
}

/// The members of a set or the records of a table, and the place of the byte that counts them.
#[derive(Clone, Debug)]
pub struct Rows {
    pub count: usize,
    pub ranges: Vec<Range<usize>>,
}

pub fn image(s: &PublicationAuthorityState) -> Encoded {
    let mut out = Encoded::default();
    out.bytes.extend_from_slice(&s.format_version.to_le_bytes());
    out.bytes.resize(BODIES, 0);
    out.body(0, 1, |o| o.scalars(s));
    out.table(1, &s.intents, |o, (id, prepared)| {
        o.text(id, TEXT);
        o.number(prepared.owner_generation);
        o.intent(&prepared.intent);
    });
    for (entry, named) in [(2, &s.roots), (3, &s.pins)] {
        out.table(entry, named, |o, (id, reference)| {
            o.text(id, TEXT);
            o.reference(reference);
        });
    }
    out.table(4, &s.deletion_reservations, |o, (_, permit)| o.permit(permit));
    out.table(5, &s.leases, |o, (_, lease)| o.lease(lease));
    out.table(6, &s.collection_jobs, |o, (_, job)| o.job(job));
    out
}

pub fn request(r: &Request) -> Encoded {
    let mut out = Encoded::default();
    out.number(r.context.generation);
    out.position(r.context.position);
    out.place(What::Flags);
    out.bytes.extend_from_slice(&flags(r.faults).to_le_bytes());
    out.action(&r.action);
    out
}

pub fn token(t: &SnapshotLeaseToken) -> Encoded {
    let mut out = Encoded::default();
    out.lease(t);
    out
}

pub fn outcome(x: &PublicationOutcome) -> Encoded {
    let mut out = Encoded::default();
    let o = &mut out;
    use PublicationOutcome::*;
    match x {
        Applied => o.bytes.push(0),
        DeleteReserved { permit } => {
            o.bytes.push(1);
            o.permit(permit);
        }
        LeaseAcquired { token } => {
            o.bytes.push(2);
            o.lease(token);
        }
        LeaseRenewed { token } => {
            o.bytes.push(3);
            o.lease(token);
        }
        LeasesExpired { lease_ids } => {
            o.bytes.push(4);
            o.set(lease_ids, TEXT);
        }
        CollectionPrepared { token } => {
            o.bytes.push(5);
            o.job(token);
        }
        CollectionPublished { receipt } => {
            o.bytes.push(6);
            o.receipt(receipt);
        }
    }
    out
}

/// The fault flags from bit 0 on, in declared order.
pub fn flags(f: PublicationAuthorityFaults) -> u16 {
    [
        f.publish_without_intent,
        f.ignore_root_epoch,
        f.ignore_delete_reservation,
        f.ignore_root_compare,
        f.allow_cross_generation_intent,
        f.retire_by_plan_key_only,
        f.accept_backdated_lease,
        f.omit_lease_root_epoch,
        f.ignore_collection_range_epoch,
        f.advance_collection_without_publication,
        f.ignore_collection_input_root,
    ]
    .iter()
    .enumerate()
    .map(|(bit, on)| u16::from(*on) << bit)
    .sum()
}

impl Encoded {
    fn place(&mut self, what: What) {
        self.places.push((self.bytes.len(), what));
    }

    /// One body of an image, and its entry of the contents.
    fn body(&mut self, entry: usize, count: usize, write: impl FnOnce(&mut Self)) {
        let start = self.bytes.len();
        write(self);
        let length = self.bytes.len() - start;
        let at = 4 + ENTRY * entry;
        self.bytes[at..at + 4].copy_from_slice(&(start as u32).to_le_bytes());
        self.bytes[at + 4..at + 8].copy_from_slice(&(length as u32).to_le_bytes());
        self.bytes[at + 8] = count as u8;
    }

    fn table<T>(
        &mut self,
        entry: usize,
        records: &BTreeMap<String, T>,
        write: impl Fn(&mut Self, (&String, &T)),
    ) {
        let count = 4 + ENTRY * entry + 8;
        self.body(entry, records.len(), |o| o.rows(count, records, write));
    }

    fn rows<T>(&mut self, count: usize, rows: impl IntoIterator<Item = T>, write: impl Fn(&mut Self, T)) {
        let mut ranges = Vec::new();
        for row in rows {
            let start = self.bytes.len();
            write(self, row);
            ranges.push(start..self.bytes.len());
        }
        self.rows.push(Rows { count, ranges });
    }

    fn number(&mut self, n: u64) {
        self.place(What::Number);
        self.bytes.extend_from_slice(&n.to_le_bytes());
    }

    fn text(&mut self, t: &str, most: usize) {
        self.place(What::Text(most));
        self.bytes.push(t.len() as u8);
        self.bytes.extend_from_slice(t.as_bytes());
    }

    fn option<T>(&mut self, o: Option<&T>, write: impl FnOnce(&mut Self, &T)) {
        self.place(What::OptionByte);
        self.bytes.push(u8::from(o.is_some()));
        if let Some(value) = o {
            write(self, value);
        }
    }

    /// A set, or a list of ids in its own order.
    fn set<'a, I>(&mut self, members: I, most: usize)
    where
        I: IntoIterator<Item = &'a String>,
        I::IntoIter: ExactSizeIterator,
    {
        let members = members.into_iter();
        self.place(What::SetCount);
        let count = self.bytes.len();
        self.bytes.push(members.len() as u8);
        self.rows(count, members, |o, member| o.text(member, most));
    }

    fn position(&mut self, p: AuthorityPosition) {
        self.number(p.term);
        self.number(p.index);
    }

    fn reference(&mut self, r: &ObjectReference) {
        self.place(What::KindByte);
        self.bytes.push(match r.kind {
            ObjectKind::Data => 0,
            ObjectKind::Manifest => 1,
        });
        self.text(&r.key, KEY);
        self.number(r.length);
        self.text(&r.sha256, TEXT);
    }

    fn identity(&mut self, i: &ObjectIdentity) {
        self.option(i.revision.e_tag.as_ref(), |o, t| o.text(t, TEXT));
        self.option(i.revision.version.as_ref(), |o, t| o.text(t, TEXT));
        self.number(i.length);
        self.text(&i.sha256, TEXT);
    }

    fn intent(&mut self, i: &PublicationIntent) {
        self.set(&i.object_keys, KEY);
        self.reference(&i.manifest);
        self.text(&i.destination_root, TEXT);
        self.option(i.expected_prior_root.as_ref(), Self::reference);
    }

    fn closure(&mut self, c: &SnapshotClosure) {
        self.reference(&c.manifest);
        self.set(&c.object_keys, KEY);
    }

    fn lease(&mut self, t: &SnapshotLeaseToken) {
        self.text(&t.lease_id, TEXT);
        self.text(&t.tenant_id, TEXT);
        self.number(t.snapshot_version);
        self.number(t.lease_epoch);
        self.text(&t.owner, TEXT);
        self.text(&t.purpose, TEXT);
        self.number(t.deadline_tick);
        self.closure(&t.closure);
        self.number(t.owner_generation);
        self.position(t.authority_position);
    }

    fn job(&mut self, j: &CollectionJobToken) {
        self.text(&j.job_id, TEXT);
        self.number(j.owner_generation);
        self.position(j.authority_position);
        self.number(j.frozen_floor);
        self.reference(&j.input_manifest);
        self.text(&j.destination_root, TEXT);
        self.number(j.range_map_epoch);
        self.number(j.expected_collected_through);
        self.text(&j.output_namespace, KEY);
    }

    fn receipt(&mut self, r: &CollectionReceipt) {
        self.job(&r.token);
        self.reference(&r.output_manifest);
        self.set(&r.object_keys, KEY);
    }

    fn permit(&mut self, p: &DeletePermit) {
        self.text(p.key(), KEY);
        self.identity(p.identity());
        self.text(p.plan_id(), TEXT);
        self.number(p.owner_generation());
        self.position(p.authority_position());
    }

    fn scalars(&mut self, s: &PublicationAuthorityState) {
        self.position(s.revision);
        self.number(s.root_intent_epoch);
        self.number(s.observed_commit_frontier);
        self.option(s.retention_window.as_ref(), |o, n| o.number(*n));
        self.number(s.retention_policy_epoch);
        self.number(s.policy_floor);
        self.number(s.minimum_readable_version);
        self.number(s.physically_collected_through);
        self.number(s.lease_clock_tick);
        self.number(s.lease_epoch);
        self.number(s.range_map_epoch);
        self.option(s.collection_root.as_ref(), |o, t| o.text(t, TEXT));
    }

    fn action(&mut self, a: &PublicationAction) {
        use PublicationAction::*;
        self.place(What::ActionByte);
        self.bytes.push(action_byte(a));
        match a {
            ObserveCommittedFrontier { committed_frontier } => self.number(*committed_frontier),
            SetRetentionWindow { expected_policy_epoch, retention_window } => {
                self.number(*expected_policy_epoch);
                self.number(*retention_window);
            }
            ObserveRangeMapEpoch { range_map_epoch } => self.number(*range_map_epoch),
            ConfigureCollectionRoot { expected, destination_root } => {
                self.option(expected.as_ref(), |o, t| o.text(t, TEXT));
                self.text(destination_root, TEXT);
            }
            AcquireLease {
                lease_id,
                tenant_id,
                snapshot_version,
                owner,
                purpose,
                deadline_tick,
                closure,
            } => {
                self.text(lease_id, TEXT);
                self.text(tenant_id, TEXT);
                self.number(*snapshot_version);
                self.text(owner, TEXT);
                self.text(purpose, TEXT);
                self.number(*deadline_tick);
                self.closure(closure);
            }
            RenewLease { lease_id, expected_lease_epoch, new_deadline_tick } => {
                self.text(lease_id, TEXT);
                self.number(*expected_lease_epoch);
                self.number(*new_deadline_tick);
            }
            ReleaseLease { lease_id, expected_lease_epoch } => {
                self.text(lease_id, TEXT);
                self.number(*expected_lease_epoch);
            }
            AdvanceLeaseClock { expected_tick, next_tick } => {
                self.number(*expected_tick);
                self.number(*next_tick);
            }
            PrepareCollection {
                job_id,
                frozen_floor,
                input_manifest,
                destination_root,
                range_map_epoch,
                expected_collected_through,
                output_namespace,
            } => {
                self.text(job_id, TEXT);
                self.number(*frozen_floor);
                self.reference(input_manifest);
                self.text(destination_root, TEXT);
                self.number(*range_map_epoch);
                self.number(*expected_collected_through);
                self.text(output_namespace, KEY);
            }
            PublishCollection { receipt } => self.receipt(receipt),
            AbandonCollection { token } => self.job(token),
            Prepare { publication_id, intent } => {
                self.text(publication_id, TEXT);
                self.intent(intent);
            }
            Publish { publication_id, destination_root, expected_prior_root, manifest } => {
                self.text(publication_id, TEXT);
                self.text(destination_root, TEXT);
                self.option(expected_prior_root.as_ref(), Self::reference);
                self.reference(manifest);
            }
            Pin { pin_id, expected, manifest } => {
                self.text(pin_id, TEXT);
                self.option(expected.as_ref(), Self::reference);
                self.reference(manifest);
            }
            Unpin { pin_id, expected } => {
                self.text(pin_id, TEXT);
                self.reference(expected);
            }
            ReserveDelete { plan_id, mark_epoch, key, identity } => {
                self.text(plan_id, TEXT);
                self.number(*mark_epoch);
                self.text(key, KEY);
                self.identity(identity);
            }
            RetireDelete { permit } => self.permit(permit),
        }
    }
}

/// An action's byte: 1 to 17 in declared order.
pub fn action_byte(a: &PublicationAction) -> u8 {
    use PublicationAction::*;
    match a {
        ObserveCommittedFrontier { .. } => 1,
        SetRetentionWindow { .. } => 2,
        ObserveRangeMapEpoch { .. } => 3,
        ConfigureCollectionRoot { .. } => 4,
        AcquireLease { .. } => 5,
        RenewLease { .. } => 6,
        ReleaseLease { .. } => 7,
        AdvanceLeaseClock { .. } => 8,
        PrepareCollection { .. } => 9,
        PublishCollection { .. } => 10,
        AbandonCollection { .. } => 11,
        Prepare { .. } => 12,
        Publish { .. } => 13,
        Pin { .. } => 14,
        Unpin { .. } => 15,
        ReserveDelete { .. } => 16,
        RetireDelete { .. } => 17,
    }
}
