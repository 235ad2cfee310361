//! A call with all that it is given, as small as it can be where the two sides differ.
use crate::oracle::{self, Answer};
use crate::{decode, encode, library, okvstep, shrink, texts};
use std::fmt;
use std::time::{Duration, Instant};

/// How long less input is looked for.
const SEARCH: Duration = Duration::from_secs(20);

/// What was called, with all that it was given.
pub enum Call {
    Apply { image: Vec<u8>, request: Vec<u8>, room: usize, outcome_room: usize },
    Validate { image: Vec<u8>, token: Vec<u8> },
    Test { image: Vec<u8> },
    Default { room: usize },
    Steps { frames: Vec<Vec<u8>>, end: Vec<u8> },
    Compare { a: Vec<u8>, b: Vec<u8> },
}

impl Call {
    /// What the two sides answer, where it is not the same.
    pub fn difference(&self) -> Option<String> {
        fn unlike<T: PartialEq + fmt::Debug>(got: T, want: T) -> Option<String> {
            (got != want).then(|| format!("answered {got:?}\nexpected {want:?}"))
        }
        match self {
            Call::Apply { image, request, room, outcome_room } => {
                let want = oracle::transition(&decode::image(image), &decode::request(request));
                let want = want.answer(*room, *outcome_room);
                unlike(library::apply(image, request, *room, *outcome_room).map(shown), Ok(shown(want)))
            }
            Call::Validate { image, token } => {
                let want = oracle::validate(&decode::image(image), &decode::token(token));
                unlike(library::validate(image, token), want)
            }
            Call::Test { image } => unlike(library::test(image), oracle::test(&decode::image(image))),
            Call::Default { room } => unlike(library::default_image(*room), Ok(oracle::default_image(*room))),
            Call::Steps { frames, end } => {
                let input = okvstep::input(frames, end);
                unlike(okvstep::run(&input), okvstep::lines(&input))
            }
            Call::Compare { a, b } => unlike(library::compare(a, b), texts::answer(a, b)),
        }
    }

    /// Less input with which the two sides still differ, as far as that is found in time.
    pub fn smallest(self) -> Self {
        let start = Instant::now();
        let differs = |call: &Call| start.elapsed() < SEARCH && call.difference().is_some();
        match self {
            Call::Apply { image, request, room, outcome_room } => {
                let call = |image: &[u8], request: &[u8]| Call::Apply {
                    image: image.to_vec(),
                    request: request.to_vec(),
                    room,
                    outcome_room,
                };
                let image = smaller_image(image, |image| differs(&call(image, &request)));
                let request = smaller(
                    request,
                    |bytes| decode::request(bytes).ok(),
                    |request| encode::request(request).bytes,
                    |request| differs(&call(&image, request)),
                );
                call(&image, &request)
            }
            Call::Validate { image, token } => {
                let call = |image: &[u8], token: &[u8]| Call::Validate {
                    image: image.to_vec(),
                    token: token.to_vec(),
                };
                let image = smaller_image(image, |image| differs(&call(image, &token)));
                let token = smaller(
                    token,
                    |bytes| decode::token(bytes).ok(),
                    |token| encode::token(token).bytes,
                    |token| differs(&call(&image, token)),
                );
                call(&image, &token)
            }
            Call::Test { image } => {
                let call = |image: &[u8]| Call::Test { image: image.to_vec() };
                call(&smaller_image(image, |image| differs(&call(image))))
            }
            Call::Default { room } => Call::Default { room },
            Call::Steps { frames, end } => {
                let call = |frames: &[Vec<u8>]| Call::Steps { frames: frames.to_vec(), end: end.clone() };
                call(&shrink::list(frames, |frames| differs(&call(frames))))
            }
            Call::Compare { a, b } => {
                // what both begin with, then what is left of each
                let same = a.iter().zip(&b).take_while(|(x, y)| x == y).count();
                let call = |head: &[u8], x: &[u8], y: &[u8]| Call::Compare {
                    a: [head, x].concat(),
                    b: [head, y].concat(),
                };
                let (x, y) = (a[same..].to_vec(), b[same..].to_vec());
                let head = shrink::bytes(a[..same].to_vec(), |head| differs(&call(head, &x, &y)));
                let x = shrink::bytes(x, |x| differs(&call(&head, x, &y)));
                let y = shrink::bytes(y, |y| differs(&call(&head, &x, y)));
                call(&head, &x, &y)
            }
        }
    }
}

fn smaller_image(image: Vec<u8>, differs: impl Fn(&[u8]) -> bool) -> Vec<u8> {
    smaller(image, |bytes| decode::image(bytes).ok(), |state| encode::image(state).bytes, differs)
}

/// As a value where the bytes are one that differs too, and else as bytes.
fn smaller<T: serde::Serialize + serde::de::DeserializeOwned>(
    bytes: Vec<u8>,
    read: impl Fn(&[u8]) -> Option<T>,
    write: impl Fn(&T) -> Vec<u8>,
    differs: impl Fn(&[u8]) -> bool,
) -> Vec<u8> {
    match read(&bytes).filter(|value| differs(&write(value))) {
        Some(value) => write(&shrink::value(value, |value| differs(&write(value)))),
        None => shrink::bytes(bytes, |bytes| differs(bytes)),
    }
}

fn shown(answer: Answer) -> (u32, String, String) {
    (answer.status, hex(&answer.next), hex(&answer.outcome))
}

fn hex(bytes: &[u8]) -> String {
    bytes.iter().map(|byte| format!("{byte:02x}")).collect()
}

impl fmt::Display for Call {
    fn fmt(&self, f: &mut fmt::Formatter<'_>) -> fmt::Result {
        match self {
            Call::Apply { image, request, room, outcome_room } => {
                writeln!(f, "apply with room {room} and {outcome_room}")?;
                writeln!(f, "image {}\n{:?}", hex(image), decode::image(image))?;
                writeln!(f, "request {}\n{:?}", hex(request), decode::request(request))?;
            }
            Call::Validate { image, token } => {
                writeln!(f, "validate\nimage {}\n{:?}", hex(image), decode::image(image))?;
                writeln!(f, "token {}\n{:?}", hex(token), decode::token(token))?;
            }
            Call::Test { image } => {
                writeln!(f, "test\nimage {}\n{:?}", hex(image), decode::image(image))?;
            }
            Call::Default { room } => writeln!(f, "default image with room {room}")?,
            Call::Steps { frames, end } => {
                writeln!(f, "okvstep\ninput {}", hex(&okvstep::input(frames, end)))?;
            }
            Call::Compare { a, b } => writeln!(f, "compare\n{}\n{}", hex(a), hex(b))?,
        }
        write!(f, "{}", self.difference().unwrap_or_else(|| "no difference when asked again".to_owned()))
    }
}
