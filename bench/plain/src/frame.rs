//! Frames: sealing and opening.

use crate::base::Lane;
use crate::field::HashKey;
use crate::lane::PadRange;
use crate::payload::{self, NotAPayload, Payload};
use crate::segments::LaneBytes;

const HEADER: usize = 16;
/// A frame's octets beside its payload: the header and the tag.
pub const OVERHEAD: usize = HEADER + 8;
const LONGEST_PAYLOAD: usize = 561;

pub enum OpenRefusal {
    NotAFrame(u32),
    WrongLane { link: u8, way: u8 },
    NoBits(u64),
    BadTag { given: u64, computed: u64 },
    NotAPayload(u32),
}

fn xor_into(octets: &mut [u8], pads: &[u8]) {
    for (octet, pad) in octets.iter_mut().zip(pads) {
        *octet ^= pad;
    }
}

fn word_at(octets: &[u8], at: usize) -> u64 {
    octets[at..]
        .first_chunk()
        .map_or(0, |word| u64::from_be_bytes(*word))
}

/// Writes the frame of the payload that `spell` appends.  `pads` are the lane bytes of the
/// range, which is used up here.
pub fn seal(
    range: PadRange,
    lane: Lane,
    key: &HashKey,
    pads: &[u8],
    spell: impl FnOnce(&mut Vec<u8>),
    into: &mut Vec<u8>,
) {
    into.clear();
    into.extend_from_slice(&[1, lane.link, lane.way as u8, 0, 0, 0, 0, 0]);
    into.extend_from_slice(&range.start().to_be_bytes());
    spell(into);
    let length = into.len() - HEADER;
    assert_eq!(range.spend(), length as u64 + 8);
    into[4..6].copy_from_slice(&(length as u16).to_be_bytes());
    xor_into(&mut into[HEADER..], &pads[..length]);
    let tag = key.tag(into, word_at(pads, length));
    into.extend_from_slice(&tag.to_be_bytes());
}

/// The offset and the payload of a frame that came on `lane`, whose bytes are `held`.
pub fn open(lane: Lane, frame: &[u8], held: &LaneBytes) -> Result<(u64, Payload), OpenRefusal> {
    use OpenRefusal::*;
    if frame.len() < OVERHEAD {
        return Err(NotAFrame(frame.len() as u32));
    }
    let length = usize::from(u16::from_be_bytes([frame[4], frame[5]]));
    let offset = word_at(frame, 8);
    let needed = length as u64 + 8;
    let place = match frame {
        _ if frame[0] != 1 => Some(0),
        _ if frame[3] != 0 => Some(3),
        _ if length == 0 || frame.len() != OVERHEAD + length => Some(4),
        _ if frame[6..8] != [0, 0] => Some(6),
        _ if offset < 8 || offset.checked_add(needed).is_none() => Some(8),
        _ => None,
    };
    if let Some(place) = place {
        return Err(NotAFrame(place));
    }
    if frame[1] != lane.link || frame[2] != lane.way as u8 {
        return Err(WrongLane {
            link: frame[1],
            way: frame[2],
        });
    }
    let (Some(pads), Some(key)) = (held.range(offset, length + 8), held.key()) else {
        return Err(NoBits(held.received()));
    };
    let given = word_at(frame, HEADER + length);
    let computed = key.tag(&frame[..HEADER + length], word_at(pads, length));
    if given != computed {
        return Err(BadTag { given, computed });
    }
    if length > LONGEST_PAYLOAD {
        // No payload is that long, so its place is looked for in the whole of it.
        let mut plain = frame[HEADER..HEADER + length].to_vec();
        xor_into(&mut plain, pads);
        return read(offset, &plain);
    }
    let mut plain = [0; LONGEST_PAYLOAD];
    let plain = &mut plain[..length];
    plain.copy_from_slice(&frame[HEADER..HEADER + length]);
    xor_into(plain, pads);
    read(offset, plain)
}

fn read(offset: u64, plain: &[u8]) -> Result<(u64, Payload), OpenRefusal> {
    match payload::read(plain) {
        Ok(payload) => Ok((offset, payload)),
        Err(NotAPayload(place)) => Err(OpenRefusal::NotAPayload(place)),
    }
}
