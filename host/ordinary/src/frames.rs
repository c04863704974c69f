//! Frames, written where they go.

use reference::limits::OUTPUT;
use reference::wire::HEADER;

/// A connection byte and a header.
const FRAME: usize = 1 + HEADER;

/// Frames one behind the other in the lent buffer.
pub struct Frames<'a> {
    out: &'a mut [u8; OUTPUT],
    used: usize,
}

impl<'a> Frames<'a> {
    pub fn new(out: &'a mut [u8; OUTPUT]) -> Frames<'a> {
        Frames { out, used: 0 }
    }

    pub fn used(&self) -> usize {
        self.used
    }

    pub fn send(&mut self, to: u8, kind: u8, code: u8, parameter: u32) {
        self.send_with(to, kind, code, parameter, &[]);
    }

    pub fn send_with(&mut self, to: u8, kind: u8, code: u8, parameter: u32, payload: &[u8]) {
        let place = &mut self.out[self.used..][..FRAME + payload.len()];
        place[0] = to;
        place[1..5].copy_from_slice(&[b'H', b'S', kind, code]);
        place[5..9].copy_from_slice(&parameter.to_be_bytes());
        place[9..FRAME].copy_from_slice(&(payload.len() as u64).to_be_bytes());
        place[FRAME..].copy_from_slice(payload);
        self.used += FRAME + payload.len();
    }
}
