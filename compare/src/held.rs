//! One call at a time, held to the oracle; the first difference ends the run.
use crate::call::Call;
use crate::counts::Counts;
use crate::limits::IMAGE;
use crate::oracle::{self, Transition};
use crate::{decode, encode, library, okvstep, texts};
use okv_publication::PublicationAuthorityState;

/// Room for every image and outcome.
pub const ROOM: usize = 70_000;
pub const OUTCOME_ROOM: usize = 16_384;

/// What is lent: all that may be needed, or just what is needed, a byte less or more, and nothing.
#[derive(Clone, Copy, PartialEq)]
pub enum Lend {
    Ample,
    Tight,
}

#[derive(Default)]
pub struct Held {
    pub counts: Counts,
    /// Where the run is, for the report of a difference.
    pub seed: u64,
    pub step: u64,
}

impl Held {
    /// The state that the call leaves with ample room; none where the old one stays.
    pub fn apply(&mut self, image: &[u8], request: &[u8], lend: Lend) -> Option<PublicationAuthorityState> {
        let (state, read) = (decode::image(image), decode::request(request));
        let transition = oracle::transition(&state, &read);
        self.counts.read(&state, &read);
        for (room, outcome_room) in rooms(&transition, lend) {
            let want = transition.answer(room, outcome_room);
            if library::apply(image, request, room, outcome_room).as_ref() != Ok(&want) {
                let (image, request) = (image.to_vec(), request.to_vec());
                self.differs(Call::Apply { image, request, room, outcome_room });
            }
            self.counts.applied(&state, &read, (room, outcome_room), &want);
        }
        if let Transition::Accepted { next, .. } = &transition {
            self.counts.length("apply", next.len(), IMAGE);
        }
        let left = transition.left(ROOM, OUTCOME_ROOM);
        if let Some(next) = &left {
            let image = encode::image(next).bytes;
            assert_eq!(decode::image(&image).as_ref(), Ok(next), "a state that is not its image's");
            self.test(&image);
        }
        left
    }

    pub fn validate(&mut self, image: &[u8], token: &[u8]) {
        let (state, read) = (decode::image(image), decode::token(token));
        let want = oracle::validate(&state, &read);
        if library::validate(image, token) != want {
            self.differs(Call::Validate { image: image.to_vec(), token: token.to_vec() });
        }
        self.counts.validated(&state, &read, want);
    }

    pub fn test(&mut self, image: &[u8]) {
        let state = decode::image(image);
        let want = oracle::test(&state);
        if library::test(image) != want {
            self.differs(Call::Test { image: image.to_vec() });
        }
        self.counts.tested(&state, want);
    }

    pub fn default_image(&mut self, room: usize) {
        let want = oracle::default_image(room);
        if library::default_image(room).as_ref() != Ok(&want) {
            self.differs(Call::Default { room });
        }
        *self.counts.default.entry(want.0).or_default() += 1;
    }

    /// okvstep as a process on frames and what stands after them.
    pub fn steps(&mut self, frames: Vec<Vec<u8>>, end: Vec<u8>) {
        let call = Call::Steps { frames, end };
        if call.difference().is_some() {
            self.differs(call);
        }
        if let Call::Steps { frames, end } = call {
            self.counts.stepped(&okvstep::lines(&okvstep::input(&frames, &end)));
        }
    }

    pub fn compare(&mut self, a: &[u8], b: &[u8]) {
        if library::compare(a, b) != texts::answer(a, b) {
            self.differs(Call::Compare { a: a.to_vec(), b: b.to_vec() });
        }
        self.counts.compared(a, b);
    }

    fn differs(&self, call: Call) -> ! {
        let call = call.smallest();
        println!("seed {} step {}: {call}", self.seed, self.step);
        std::process::exit(1);
    }
}

fn rooms(transition: &Transition, lend: Lend) -> Vec<(usize, usize)> {
    let mut rooms = vec![(ROOM, OUTCOME_ROOM)];
    match (lend, transition) {
        (Lend::Ample, _) => {}
        (Lend::Tight, Transition::Refused(_)) => rooms.extend([(0, 0), (ROOM, 0)]),
        (Lend::Tight, Transition::Accepted { next, outcome, .. }) => {
            let around = |length: usize| [length, length - 1, length + 1, 0];
            for room in around(next.len()) {
                rooms.extend(around(outcome.len()).map(|outcome_room| (room, outcome_room)));
            }
        }
    }
    rooms
}
