//! Images, requests and tokens read from any bytes, written from the text of document 01 and from nothing else; and the
//! ended leases of an outcome.
use crate::limits::*;
use crate::permit::permit;
use okv_publication::*;
use serde::{Deserialize, Serialize};
use std::collections::{BTreeMap, BTreeSet};

/// Why bytes cannot be read. The first that is met from the first byte decides.
#[derive(Clone, Copy, Debug, Eq, Ord, PartialEq, PartialOrd)]
pub enum Fault {
    Early,
    Surplus,
    OptionByte,
    KindByte,
    ActionByte,
    FlagBits,
    SetOrder,
    TextLimit,
    SetLimit,
    NotUtf8,
    // of images alone
    ImageLimit,
    Offset,
    Length,
    ScalarsCount,
    TableLimit,
    RecordOrder,
}

impl Fault {
    /// The number of this fault in a request or a token. In an image each is 40.
    pub fn number(self) -> u32 {
        match self {
            Fault::TextLimit | Fault::SetLimit => 42,
            Fault::NotUtf8 => 43,
            _ => 41,
        }
    }
}

pub type Read<T> = Result<T, Fault>;

/// What one request says.
#[derive(Clone, Debug, Deserialize, PartialEq, Serialize)]
pub struct Request {
    pub context: AuthorityContext,
    pub faults: PublicationAuthorityFaults,
    pub action: PublicationAction,
}

/// The fault flags, from bit 0 on in declared order.
pub fn faults(bits: u16) -> PublicationAuthorityFaults {
    let on = |bit: u32| bits >> bit & 1 == 1;
    PublicationAuthorityFaults {
        publish_without_intent: on(0),
        ignore_root_epoch: on(1),
        ignore_delete_reservation: on(2),
        ignore_root_compare: on(3),
        allow_cross_generation_intent: on(4),
        retire_by_plan_key_only: on(5),
        accept_backdated_lease: on(6),
        omit_lease_root_epoch: on(7),
        ignore_collection_range_epoch: on(8),
        advance_collection_without_publication: on(9),
        ignore_collection_input_root: on(10),
    }
}

pub fn request(bytes: &[u8]) -> Read<Request> {
    whole(bytes, Reader::request)
}

pub fn token(bytes: &[u8]) -> Read<SnapshotLeaseToken> {
    whole(bytes, Reader::lease)
}

pub fn image(bytes: &[u8]) -> Read<PublicationAuthorityState> {
    if bytes.len() > IMAGE {
        return Err(Fault::ImageLimit);
    }
    let mut head = Reader { bytes, at: 0 };
    let format_version = head.number(4)? as u32;
    let mut bodies = Vec::with_capacity(ENTRIES);
    let mut start = BODIES;
    for _ in 0..ENTRIES {
        let (offset, length) = (head.number(4)? as usize, head.number(4)? as usize);
        let count = head.byte()? as usize;
        if offset != start {
            return Err(Fault::Offset);
        }
        let body = bytes.get(start..start + length).ok_or(Fault::Length)?;
        bodies.push((body, count));
        start += length;
    }
    if start != bytes.len() {
        return Err(Fault::Length);
    }
    let (scalars, count) = bodies[0];
    if count != 1 {
        return Err(Fault::ScalarsCount);
    }
    let mut state = whole(scalars, Reader::scalars)?;
    state.format_version = format_version;
    state.intents = table(bodies[1], TABLES[0], |r| Ok((r.text(TEXT)?, r.prepared()?)))?;
    state.roots = table(bodies[2], TABLES[1], |r| Ok((r.text(TEXT)?, r.reference()?)))?;
    state.pins = table(bodies[3], TABLES[2], |r| Ok((r.text(TEXT)?, r.reference()?)))?;
    state.deletion_reservations = table(bodies[4], TABLES[3], |r| {
        let permit = r.permit()?;
        Ok((permit.key().to_owned(), permit))
    })?;
    state.leases = table(bodies[5], TABLES[4], |r| {
        let lease = r.lease()?;
        Ok((lease.lease_id.clone(), lease))
    })?;
    state.collection_jobs = table(bodies[6], TABLES[5], |r| {
        let job = r.job()?;
        Ok((job.job_id.clone(), job))
    })?;
    Ok(state)
}

/// The ids of a good outcome `LeasesExpired` as they stand there, in any order; none of another outcome.
pub fn ended(outcome: &[u8]) -> Option<Vec<String>> {
    let ids = outcome.strip_prefix(&[4])?;
    let ids = whole(ids, |r| (0..r.byte()?).map(|_| r.text(TEXT)).collect());
    Some(ids.expect("ids and nothing after them"))
}

/// One value and nothing after it.
fn whole<'a, T>(bytes: &'a [u8], read: impl FnOnce(&mut Reader<'a>) -> Read<T>) -> Read<T> {
    let mut reader = Reader { bytes, at: 0 };
    let value = read(&mut reader)?;
    reader.end()?;
    Ok(value)
}

/// So many records with ascending ids, and nothing after them.
fn table<'a, T>(
    (body, count): (&'a [u8], usize),
    most: usize,
    mut record: impl FnMut(&mut Reader<'a>) -> Read<(String, T)>,
) -> Read<BTreeMap<String, T>> {
    if count > most {
        return Err(Fault::TableLimit);
    }
    whole(body, |reader| {
        let mut rows = BTreeMap::new();
        for _ in 0..count {
            let (id, value) = record(reader)?;
            if rows.keys().next_back().is_some_and(|last| *last >= id) {
                return Err(Fault::RecordOrder);
            }
            rows.insert(id, value);
        }
        Ok(rows)
    })
}

struct Reader<'a> {
    bytes: &'a [u8],
    at: usize,
}

impl<'a> Reader<'a> {
    fn take(&mut self, count: usize) -> Read<&'a [u8]> {
        let taken = self.bytes.get(self.at..self.at + count).ok_or(Fault::Early)?;
        self.at += count;
        Ok(taken)
    }

    fn end(&self) -> Read<()> {
        if self.at < self.bytes.len() {
            return Err(Fault::Surplus);
        }
        Ok(())
    }

    fn byte(&mut self) -> Read<u8> {
        Ok(self.take(1)?[0])
    }

    fn number(&mut self, width: usize) -> Read<u64> {
        Ok(self.take(width)?.iter().rev().fold(0, |n, byte| n << 8 | u64::from(*byte)))
    }

    fn long(&mut self) -> Read<u64> {
        self.number(8)
    }

    /// At one text: its limit, then an early end, then UTF-8.
    fn text(&mut self, most: usize) -> Read<String> {
        let length = self.byte()? as usize;
        if length > most {
            return Err(Fault::TextLimit);
        }
        let bytes = self.take(length)?;
        String::from_utf8(bytes.to_vec()).map_err(|_| Fault::NotUtf8)
    }

    fn option<T>(&mut self, value: impl FnOnce(&mut Self) -> Read<T>) -> Read<Option<T>> {
        match self.byte()? {
            0 => Ok(None),
            1 => value(self).map(Some),
            _ => Err(Fault::OptionByte),
        }
    }

    /// A set of keys: the order of a member is tested after the member itself.
    fn set(&mut self) -> Read<BTreeSet<String>> {
        let count = self.byte()? as usize;
        if count > SET {
            return Err(Fault::SetLimit);
        }
        let mut members = BTreeSet::new();
        for _ in 0..count {
            let member = self.text(KEY)?;
            if members.last().is_some_and(|last| *last >= member) {
                return Err(Fault::SetOrder);
            }
            members.insert(member);
        }
        Ok(members)
    }

    fn position(&mut self) -> Read<AuthorityPosition> {
        Ok(AuthorityPosition { term: self.long()?, index: self.long()? })
    }

    fn reference(&mut self) -> Read<ObjectReference> {
        let kind = match self.byte()? {
            0 => ObjectKind::Data,
            1 => ObjectKind::Manifest,
            _ => return Err(Fault::KindByte),
        };
        Ok(ObjectReference { kind, key: self.text(KEY)?, length: self.long()?, sha256: self.text(TEXT)? })
    }

    fn identity(&mut self) -> Read<ObjectIdentity> {
        Ok(ObjectIdentity {
            revision: RevisionToken {
                e_tag: self.option(|r| r.text(TEXT))?,
                version: self.option(|r| r.text(TEXT))?,
            },
            length: self.long()?,
            sha256: self.text(TEXT)?,
        })
    }

    fn intent(&mut self) -> Read<PublicationIntent> {
        Ok(PublicationIntent {
            object_keys: self.set()?,
            manifest: self.reference()?,
            destination_root: self.text(TEXT)?,
            expected_prior_root: self.option(Self::reference)?,
        })
    }

    fn prepared(&mut self) -> Read<PreparedPublication> {
        Ok(PreparedPublication { owner_generation: self.long()?, intent: self.intent()? })
    }

    fn closure(&mut self) -> Read<SnapshotClosure> {
        Ok(SnapshotClosure { manifest: self.reference()?, object_keys: self.set()? })
    }

    fn lease(&mut self) -> Read<SnapshotLeaseToken> {
        Ok(SnapshotLeaseToken {
            lease_id: self.text(TEXT)?,
            tenant_id: self.text(TEXT)?,
            snapshot_version: self.long()?,
            lease_epoch: self.long()?,
            owner: self.text(TEXT)?,
            purpose: self.text(TEXT)?,
            deadline_tick: self.long()?,
            closure: self.closure()?,
            owner_generation: self.long()?,
            authority_position: self.position()?,
        })
    }

    fn job(&mut self) -> Read<CollectionJobToken> {
        Ok(CollectionJobToken {
            job_id: self.text(TEXT)?,
            owner_generation: self.long()?,
            authority_position: self.position()?,
            frozen_floor: self.long()?,
            input_manifest: self.reference()?,
            destination_root: self.text(TEXT)?,
            range_map_epoch: self.long()?,
            expected_collected_through: self.long()?,
            output_namespace: self.text(KEY)?,
        })
    }

    fn receipt(&mut self) -> Read<CollectionReceipt> {
        Ok(CollectionReceipt {
            token: self.job()?,
            output_manifest: self.reference()?,
            object_keys: self.set()?,
        })
    }

    fn permit(&mut self) -> Read<DeletePermit> {
        let key = self.text(KEY)?;
        let identity = self.identity()?;
        let plan_id = self.text(TEXT)?;
        Ok(permit(&key, &identity, &plan_id, self.long()?, self.position()?))
    }

    /// The fields that are no maps, in declared order; the maps and `format_version` are left as the default has them.
    fn scalars(&mut self) -> Read<PublicationAuthorityState> {
        Ok(PublicationAuthorityState {
            revision: self.position()?,
            root_intent_epoch: self.long()?,
            observed_commit_frontier: self.long()?,
            retention_window: self.option(Self::long)?,
            retention_policy_epoch: self.long()?,
            policy_floor: self.long()?,
            minimum_readable_version: self.long()?,
            physically_collected_through: self.long()?,
            lease_clock_tick: self.long()?,
            lease_epoch: self.long()?,
            range_map_epoch: self.long()?,
            collection_root: self.option(|r| r.text(TEXT))?,
            ..PublicationAuthorityState::default()
        })
    }

    fn faults(&mut self) -> Read<PublicationAuthorityFaults> {
        let bits = self.number(2)? as u16;
        if bits >> FLAGS != 0 {
            return Err(Fault::FlagBits);
        }
        Ok(faults(bits))
    }

    fn request(&mut self) -> Read<Request> {
        Ok(Request {
            context: AuthorityContext { generation: self.long()?, position: self.position()? },
            faults: self.faults()?,
            action: self.action()?,
        })
    }

    fn action(&mut self) -> Read<PublicationAction> {
        use PublicationAction::*;
        Ok(match self.byte()? {
            1 => ObserveCommittedFrontier { committed_frontier: self.long()? },
            2 => SetRetentionWindow { expected_policy_epoch: self.long()?, retention_window: self.long()? },
            3 => ObserveRangeMapEpoch { range_map_epoch: self.long()? },
            4 => ConfigureCollectionRoot {
                expected: self.option(|r| r.text(TEXT))?,
                destination_root: self.text(TEXT)?,
            },
            5 => AcquireLease {
                lease_id: self.text(TEXT)?,
                tenant_id: self.text(TEXT)?,
                snapshot_version: self.long()?,
                owner: self.text(TEXT)?,
                purpose: self.text(TEXT)?,
                deadline_tick: self.long()?,
                closure: self.closure()?,
            },
            6 => RenewLease {
                lease_id: self.text(TEXT)?,
                expected_lease_epoch: self.long()?,
                new_deadline_tick: self.long()?,
            },
            7 => ReleaseLease { lease_id: self.text(TEXT)?, expected_lease_epoch: self.long()? },
            8 => AdvanceLeaseClock { expected_tick: self.long()?, next_tick: self.long()? },
            9 => PrepareCollection {
                job_id: self.text(TEXT)?,
                frozen_floor: self.long()?,
                input_manifest: self.reference()?,
                destination_root: self.text(TEXT)?,
                range_map_epoch: self.long()?,
                expected_collected_through: self.long()?,
                output_namespace: self.text(KEY)?,
            },
            10 => PublishCollection { receipt: self.receipt()? },
            11 => AbandonCollection { token: self.job()? },
            12 => Prepare { publication_id: self.text(TEXT)?, intent: self.intent()? },
            13 => Publish {
                publication_id: self.text(TEXT)?,
                destination_root: self.text(TEXT)?,
                expected_prior_root: self.option(Self::reference)?,
                manifest: self.reference()?,
            },
            14 => Pin {
                pin_id: self.text(TEXT)?,
                expected: self.option(Self::reference)?,
                manifest: self.reference()?,
            },
            15 => Unpin { pin_id: self.text(TEXT)?, expected: self.reference()? },
            16 => ReserveDelete {
                plan_id: self.text(TEXT)?,
                mark_epoch: self.long()?,
                key: self.text(KEY)?,
                identity: self.identity()?,
            },
            17 => RetireDelete { permit: self.permit()? },
            _ => return Err(Fault::ActionByte),
        })
    }
}
