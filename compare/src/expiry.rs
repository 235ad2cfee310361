//! Request K1 of document 02: the leases that a clock step ends stand by deadline, the earliest first; those of one
//! deadline by epoch, the smaller first; those of one epoch by id, in the order of bytes. The Rust lists them by id.
use crate::actions::{plain, Flags};
use crate::decode::Request;
use crate::encode;
use crate::limits::*;
use crate::values::Gen;
use okv_publication::*;
use std::cmp::Ordering;

/// The Rust's outcome with the ended leases in this order, each as it was stored before the call.
pub fn in_order(outcome: PublicationOutcome, before: &PublicationAuthorityState) -> PublicationOutcome {
    let PublicationOutcome::LeasesExpired { mut lease_ids } = outcome else { return outcome };
    lease_ids.sort_by(|a, b| by_deadline((a, &before.leases[a]), (b, &before.leases[b])));
    PublicationOutcome::LeasesExpired { lease_ids }
}

type Stored<'a> = (&'a String, &'a SnapshotLeaseToken);

fn by_deadline((id, lease): Stored, (other_id, other): Stored) -> Ordering {
    let deadlines = lease.deadline_tick.cmp(&other.deadline_tick);
    let epochs = lease.lease_epoch.cmp(&other.lease_epoch);
    deadlines.then(epochs).then(id.as_bytes().cmp(other_id.as_bytes()))
}

/// What two neighbours of a list of ended leases can be.
#[derive(Clone, Copy, Debug, Eq, Ord, PartialEq, PartialOrd)]
pub enum Neighbours {
    /// Of one deadline, so that their epochs decide.
    EqualDeadlines,
    /// Of one deadline and one epoch, so that their ids decide.
    EqualDeadlinesAndEpochs,
    /// The larger id first.
    NotById,
    /// The larger id first, with one deadline.
    EpochsNotById,
    /// The larger epoch first.
    NotByEpoch,
}

pub const NEIGHBOURS: [Neighbours; 5] = [
    Neighbours::EqualDeadlines,
    Neighbours::EqualDeadlinesAndEpochs,
    Neighbours::NotById,
    Neighbours::EpochsNotById,
    Neighbours::NotByEpoch,
];

impl Neighbours {
    /// Whether a list of leases that ended has such neighbours.
    pub fn are_in(self, lease_ids: &[String], before: &PublicationAuthorityState) -> bool {
        lease_ids.windows(2).any(|pair| {
            let [a, b] = [&pair[0], &pair[1]].map(|id| &before.leases[id]);
            let equal = a.deadline_tick == b.deadline_tick;
            match self {
                Neighbours::EqualDeadlines => equal && a.lease_epoch != b.lease_epoch,
                Neighbours::EqualDeadlinesAndEpochs => equal && a.lease_epoch == b.lease_epoch,
                Neighbours::NotById => pair[0] > pair[1],
                Neighbours::EpochsNotById => equal && pair[0] > pair[1],
                Neighbours::NotByEpoch => a.lease_epoch > b.lease_epoch,
            }
        })
    }
}

/// Numbers that have another order by their bytes, by sign, or cut to 32 bits.
const NUMBERS: [u64; 12] =
    [0, 1, 2, 255, 256, 65_535, 65_536, 1 << 32, (1 << 63) - 1, 1 << 63, u64::MAX - 1, u64::MAX];

impl Gen {
    /// A clock step that ends so many leases, and a state built directly for it, as no history reaches: some deadlines and
    /// epochs are equal. Where there is place a few more leases live on.
    pub fn expiry(&mut self, ended: usize) -> (PublicationAuthorityState, Request) {
        let next_tick = self.rng.pick(&NUMBERS[1..]);
        let mut state = self.state(false);
        state.format_version = 1;
        state.lease_clock_tick = self.rng.below(next_tick);
        let more = if next_tick < u64::MAX { self.rng.index(4).min(TABLES[4] - ended) } else { 0 };
        state.leases = self.table(ended + more, |g| g.lease(&state));
        let (deadlines, epochs) = (self.pool(next_tick), self.pool(u64::MAX));
        let living = [next_tick.saturating_add(1), u64::MAX];
        let (mut rows, mut more) = (ended + more, more);
        for lease in state.leases.values_mut() {
            let lives = self.rng.index(rows) < more;
            rows -= 1;
            more -= usize::from(lives);
            lease.deadline_tick = self.rng.pick(if lives { &living[..] } else { &deadlines });
            lease.lease_epoch = self.rng.pick(&epochs);
        }
        if encode::image(&state).bytes.len() > IMAGE {
            state.leases.values_mut().for_each(|lease| lease.closure.object_keys.clear());
        }
        let action =
            PublicationAction::AdvanceLeaseClock { expected_tick: state.lease_clock_tick, next_tick };
        (state, Request { faults: self.faults(Flags::Any), ..plain(action) })
    }

    /// One number up to this one, or a few, or many.
    fn pool(&mut self, most: u64) -> Vec<u64> {
        let size = self.rng.pick(&[1, 2, 4, TABLES[4]]);
        let number = |_| match self.rng.one_in(2) {
            true => self.rng.below(most),
            false => self.rng.pick(&NUMBERS).min(most),
        };
        (0..size).map(number).collect()
    }
}
