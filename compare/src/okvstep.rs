//! The program okvstep: the lines that it must print, and it as a process.
use crate::decode;
use crate::limits::*;
use crate::oracle;
use okv_publication::PublicationAuthorityState;
use std::fmt::Write as _;
use std::io::{Read, Write};
use std::process::{Command, Stdio};

/// The program, from the folder of the repository.
const PROGRAM: &str = "crates/okvstep/out/okvstep";

/// The lines for an input.
pub fn lines(input: &[u8]) -> String {
    let mut out = "step status frontier policy readable collected clock epoch\n".to_owned();
    let mut state = PublicationAuthorityState::default();
    let mut rest = input;
    for step in 1.. {
        if rest.is_empty() {
            out += "end\n";
            break;
        }
        let Some((request, after)) = frame(rest) else {
            out += "end bad\n";
            break;
        };
        rest = after;
        let transition = oracle::transition(&Ok(state.clone()), &decode::request(request));
        let status = transition.answer(STEP_IMAGE, STEP_OUTCOME).status;
        if let Some(next) = transition.left(STEP_IMAGE, STEP_OUTCOME) {
            state = next;
        }
        writeln!(
            out,
            "{step} {status} {} {} {} {} {} {}",
            state.observed_commit_frontier,
            state.policy_floor,
            state.minimum_readable_version,
            state.physically_collected_through,
            state.lease_clock_tick,
            state.root_intent_epoch,
        )
        .expect("text");
    }
    out
}

/// The next frame's request and what follows it; none where it is cut or too long.
fn frame(input: &[u8]) -> Option<(&[u8], &[u8])> {
    let (head, rest) = input.split_first_chunk::<4>()?;
    let size = u32::from_le_bytes(*head) as usize;
    if size > FRAME || size > rest.len() {
        return None;
    }
    Some(rest.split_at(size))
}

/// Frames one after another, and bytes after them.
pub fn input(frames: &[Vec<u8>], end: &[u8]) -> Vec<u8> {
    let mut input = Vec::new();
    for frame in frames {
        input.extend_from_slice(&(frame.len() as u32).to_le_bytes());
        input.extend_from_slice(frame);
    }
    input.extend_from_slice(end);
    input
}

/// What the program prints. It is handed the input in pieces that end anywhere.
pub fn run(input: &[u8]) -> String {
    let mut child = Command::new(PROGRAM)
        .stdin(Stdio::piped())
        .stdout(Stdio::piped())
        .spawn()
        .unwrap_or_else(|error| panic!("{PROGRAM}: {error}"));
    let mut to = child.stdin.take().expect("its standard input");
    let mut from = child.stdout.take().expect("its standard output");
    let mut out = String::new();
    std::thread::scope(|scope| {
        scope.spawn(move || {
            for piece in input.chunks(997) {
                // after a bad frame it reads no more
                if to.write_all(piece).is_err() {
                    break;
                }
            }
        });
        from.read_to_string(&mut out).expect("what it prints");
    });
    let status = child.wait().expect("its end");
    if !status.success() {
        write!(out, "{status}").expect("text");
    }
    out
}
