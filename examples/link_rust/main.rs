//! Steps the authority through libokv.a by the frames of standard input, which `tools/okv frames SCRIPT` writes. Prints
//! a line for each frame: its step, the number answered, the lengths of image and outcome, what validation says of the
//! newest lease token (41 while there is none), and the leases that ended, in the order in which they ran out. Writes the
//! last image and outcome to the two files that its arguments name. Two arguments more name such files to begin with, in
//! place of the default image and no outcome.
use std::io::Read;

/// The functions of include/okv.h over slices. An error is the number of the refusal.
mod okv {
    mod c {
        include!("../../include/okv.rs");
    }

    fn answer<T>(status: u32, value: T) -> Result<T, u32> {
        if status == 0 { Ok(value) } else { Err(status) }
    }

    /// The length of the default image, written.
    pub fn default(image: &mut [u8]) -> Result<usize, u32> {
        let mut length = 0;
        let status = unsafe { c::okv_default(image.as_mut_ptr(), image.len(), &mut length) };
        answer(status, length)
    }

    pub fn test(image: &[u8]) -> Result<(), u32> {
        answer(unsafe { c::okv_test(image.as_ptr(), image.len()) }, ())
    }

    /// The lengths of the next image and of the outcome, both written.
    pub fn apply(image: &[u8], request: &[u8], next: &mut [u8], outcome: &mut [u8]) -> Result<(usize, usize), u32> {
        let (mut n, mut m) = (0, 0);
        let status = unsafe {
            c::okv_apply(
                image.as_ptr(), image.len(), request.as_ptr(), request.len(),
                next.as_mut_ptr(), next.len(), outcome.as_mut_ptr(), outcome.len(), &mut n, &mut m,
            )
        };
        answer(status, (n, m))
    }

    pub fn validate(image: &[u8], token: &[u8]) -> Result<(), u32> {
        answer(unsafe { c::okv_validate(image.as_ptr(), image.len(), token.as_ptr(), token.len()) }, ())
    }
}

/// The request of the first frame, and the frames after it.
fn next_frame(frames: &[u8]) -> Option<(&[u8], &[u8])> {
    let (size, rest) = frames.split_first_chunk::<4>()?;
    rest.split_at_checked(u32::from_le_bytes(*size) as usize)
}

/// The ids of outcome 4, LeasesExpired, as they stand: that byte, their count, and each after its length.
fn ended(outcome: &[u8]) -> Vec<String> {
    let [4, _, rest @ ..] = outcome else { return vec![] };
    let (mut rest, mut ids) = (rest, vec![]);
    while let Some((length, after)) = rest.split_first() {
        let (id, after) = after.split_at(usize::from(*length));
        ids.push(String::from_utf8_lossy(id).into_owned());
        rest = after;
    }
    ids
}

/// The token of outcomes 2 and 3, LeaseAcquired and LeaseRenewed: what stands after that byte.
fn token_of(outcome: &[u8]) -> Option<Vec<u8>> {
    match outcome {
        [2 | 3, token @ ..] => Some(token.to_vec()),
        _ => None,
    }
}

fn default_image() -> Vec<u8> {
    let mut image = vec![0; 65535];
    let length = okv::default(&mut image).expect("room for the default image");
    image.truncate(length);
    image
}

fn number<T>(answer: Result<T, u32>) -> u32 {
    answer.err().unwrap_or(0)
}

fn main() -> std::io::Result<()> {
    let paths: Vec<String> = std::env::args().skip(1).collect();
    let [image_path, outcome_path, begin @ ..] = &paths[..] else { panic!("two paths: for the image, for the outcome") };
    let (mut image, mut last) = match begin {
        [image, outcome] => (std::fs::read(image)?, std::fs::read(outcome)?),
        _ => (default_image(), vec![]),
    };
    assert_eq!(okv::test(&image), Ok(()));
    let mut token = token_of(&last).unwrap_or_default();
    let (mut next, mut outcome) = (vec![0; 65535], vec![0; 8192]);
    let mut input = vec![];
    std::io::stdin().read_to_end(&mut input)?;
    let (mut frames, mut step) = (&input[..], 0);
    println!("step status image outcome token ended");
    while let Some((request, rest)) = next_frame(frames) {
        (frames, step) = (rest, step + 1);
        let answer = okv::apply(&image, request, &mut next, &mut outcome);
        if let Ok((n, m)) = answer {
            (image, last) = (next[..n].to_vec(), outcome[..m].to_vec());
            token = token_of(&last).unwrap_or(token);
        }
        let (n, m) = answer.unwrap_or((0, 0));
        let numbers = format!("{step} {} {n} {m} {}", number(answer), number(okv::validate(&image, &token)));
        println!("{}", [vec![numbers], ended(&outcome[..m])].concat().join(" "));
    }
    std::fs::write(image_path, image)?;
    std::fs::write(outcome_path, last)
}
