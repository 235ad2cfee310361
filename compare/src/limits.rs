//! The numbers of document 01.
use okv_publication::PublicationAuthorityState;

/// Most bytes of a key or a namespace.
pub const KEY: usize = 128;
/// Most bytes of every other text.
pub const TEXT: usize = 64;
/// Most members of a set.
pub const SET: usize = 16;
/// Most bytes of an image.
pub const IMAGE: usize = 65_535;
/// Entries of an image's contents, the bytes of one, and where the first body begins.
pub const ENTRIES: usize = 7;
pub const ENTRY: usize = 9;
pub const BODIES: usize = 4 + ENTRIES * ENTRY;
/// Most records of each table, in the order of the image.
pub const TABLES: [usize; 6] = [32, 32, 32, 128, 64, 8];
/// Fault flags, from bit 0.
pub const FLAGS: usize = 11;
/// What okvstep reads in a frame, and lends for an image and for an outcome.
pub const FRAME: usize = 8_192;
pub const STEP_IMAGE: usize = 16_384;
pub const STEP_OUTCOME: usize = 8_192;

/// How many records each table has.
pub fn sizes(s: &PublicationAuthorityState) -> [usize; 6] {
    [
        s.intents.len(),
        s.roots.len(),
        s.pins.len(),
        s.deletion_reservations.len(),
        s.leases.len(),
        s.collection_jobs.len(),
    ]
}

/// The first table that is over its limit.
pub fn over(s: &PublicationAuthorityState) -> Option<usize> {
    sizes(s).iter().zip(TABLES).position(|(size, most)| *size > most)
}
