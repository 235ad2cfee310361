//! The four functions of include/okv.h, called with slices that lie between bytes which must not change, and text_compare
//! of include/text.h.
use crate::oracle::Answer;

include!(env!("OKV_RS"));
include!(env!("TEXT_RS"));

const FILL: u8 = 0xA5;
const MARGIN: usize = 16;

/// A slice to lend, with bytes before and after it.
struct Lent {
    bytes: Vec<u8>,
    room: usize,
    length: usize,
}

impl Lent {
    fn new(room: usize) -> Self {
        Lent { bytes: vec![FILL; MARGIN + room + MARGIN], room, length: usize::MAX }
    }

    fn start(&mut self) -> *mut u8 {
        self.bytes[MARGIN..].as_mut_ptr()
    }

    /// What was written, where no byte but those was touched.
    fn written(self) -> Result<Vec<u8>, String> {
        if self.length > self.room {
            return Err(format!("length {} past the room {}", self.length, self.room));
        }
        let end = MARGIN + self.length;
        let untouched = |bytes: &[u8]| bytes.iter().all(|byte| *byte == FILL);
        if !untouched(&self.bytes[..MARGIN]) || !untouched(&self.bytes[end..]) {
            return Err("a byte outside of the answered length changed".to_owned());
        }
        Ok(self.bytes[MARGIN..end].to_vec())
    }
}

pub fn apply(image: &[u8], request: &[u8], room: usize, outcome_room: usize) -> Result<Answer, String> {
    let (mut next, mut outcome) = (Lent::new(room), Lent::new(outcome_room));
    let (next_start, outcome_start) = (next.start(), outcome.start());
    let status = unsafe {
        okv_apply(
            image.as_ptr(),
            image.len(),
            request.as_ptr(),
            request.len(),
            next_start,
            room,
            outcome_start,
            outcome_room,
            &mut next.length,
            &mut outcome.length,
        )
    };
    Ok(Answer { status, next: next.written()?, outcome: outcome.written()? })
}

pub fn validate(image: &[u8], token: &[u8]) -> u32 {
    unsafe { okv_validate(image.as_ptr(), image.len(), token.as_ptr(), token.len()) }
}

pub fn test(image: &[u8]) -> u32 {
    unsafe { okv_test(image.as_ptr(), image.len()) }
}

/// The order and the steps.
pub fn compare(a: &[u8], b: &[u8]) -> (u8, usize) {
    let mut steps = usize::MAX;
    let order = unsafe { text_compare(a.as_ptr(), a.len(), b.as_ptr(), b.len(), &mut steps) };
    (order, steps)
}

pub fn default_image(room: usize) -> Result<(u32, Vec<u8>), String> {
    let mut image = Lent::new(room);
    let start = image.start();
    let status = unsafe { okv_default(start, room, &mut image.length) };
    Ok((status, image.written()?))
}
