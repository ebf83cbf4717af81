//! ChaCha20 as a generator of bytes, with the device and the entropy over it.
//! Sixteen blocks are computed side by side, lane by lane in inner loops that the compiler turns
//! into vectors; where the processor has AVX2, the same code runs as compiled for it.

use crate::base::BLOCK;

const LANES: usize = 16;
/// The octets of sixteen blocks, which are one block of a link.
const PIECE: usize = 64 * LANES;
const CONSTANTS: [u32; 4] = [0x6170_7865, 0x3320_646e, 0x7962_2d32, 0x6b20_6574];

/// One word of each of the sixteen blocks.
type Words = [u32; LANES];

// The loop over the lanes is one over four lists at once, in the form that becomes vectors.
#[allow(clippy::needless_range_loop)]
#[inline(always)]
fn quarter(x: &mut [Words; 16], a: usize, b: usize, c: usize, d: usize) {
    for lane in 0..LANES {
        let (mut p, mut q, mut r, mut s) = (x[a][lane], x[b][lane], x[c][lane], x[d][lane]);
        p = p.wrapping_add(q);
        s = (s ^ p).rotate_left(16);
        r = r.wrapping_add(s);
        q = (q ^ r).rotate_left(12);
        p = p.wrapping_add(q);
        s = (s ^ p).rotate_left(8);
        r = r.wrapping_add(s);
        q = (q ^ r).rotate_left(7);
        (x[a][lane], x[b][lane], x[c][lane], x[d][lane]) = (p, q, r, s);
    }
}

/// The blocks `first` to `first + 15` of stream 0.
#[inline(always)]
fn sixteen_blocks(key: &[u32; 8], first: u64, into: &mut [u8; PIECE]) {
    let mut start = [[0; LANES]; 16];
    for (words, constant) in start.iter_mut().zip(CONSTANTS.iter().chain(key)) {
        *words = [*constant; LANES];
    }
    start[12] = std::array::from_fn(|lane| (first + lane as u64) as u32);
    start[13] = std::array::from_fn(|lane| ((first + lane as u64) >> 32) as u32);
    let mut x = start;
    for _ in 0..10 {
        quarter(&mut x, 0, 4, 8, 12);
        quarter(&mut x, 1, 5, 9, 13);
        quarter(&mut x, 2, 6, 10, 14);
        quarter(&mut x, 3, 7, 11, 15);
        quarter(&mut x, 0, 5, 10, 15);
        quarter(&mut x, 1, 6, 11, 12);
        quarter(&mut x, 2, 7, 8, 13);
        quarter(&mut x, 3, 4, 9, 14);
    }
    for (words, start) in x.iter_mut().zip(&start) {
        for (word, start) in words.iter_mut().zip(start) {
            *word = word.wrapping_add(*start);
        }
    }
    for (lane, block) in into.chunks_exact_mut(64).enumerate() {
        for (words, out) in x.iter().zip(block.chunks_exact_mut(4)) {
            out.copy_from_slice(&words[lane].to_le_bytes());
        }
    }
}

#[cfg(target_arch = "x86_64")]
#[target_feature(enable = "avx2")]
fn sixteen_blocks_avx2(key: &[u32; 8], first: u64, into: &mut [u8; PIECE]) {
    sixteen_blocks(key, first, into);
}

struct Stream {
    key: [u32; 8],
}

impl Stream {
    /// The generator with the key of 32 octets `first`, `second` and thirty zeros.
    fn new(first: u8, second: u8) -> Stream {
        let mut key = [0; 8];
        key[0] = u32::from_le_bytes([first, second, 0, 0]);
        Stream { key }
    }

    /// The octets `1,024 * number` to `1,024 * number + 1,023`.
    fn piece(&self, number: u64, into: &mut [u8; PIECE]) {
        let first = LANES as u64 * number;
        #[cfg(target_arch = "x86_64")]
        if is_x86_feature_detected!("avx2") {
            // SAFETY: the processor has the feature, as the line above has just tested.
            unsafe { sixteen_blocks_avx2(&self.key, first, into) };
            return;
        }
        sixteen_blocks(&self.key, first, into);
    }
}

/// The device of a link: a list of 1,048,576 octets, read block by block by both ends.
pub struct Device {
    stream: Stream,
}

impl Device {
    pub fn new(link: u8) -> Device {
        Device {
            stream: Stream::new(0x4c, link),
        }
    }

    /// Bytes 1,024n to 1,024n + 1,023.  The run asks for no block behind the list's end, since
    /// a link takes 1,024 blocks.
    pub fn block(&self, number: u32, into: &mut [u8; BLOCK]) {
        self.stream.piece(u64::from(number), into);
    }
}

/// The entropy of a node: a list without an end, whose front each draw takes.
pub struct Entropy {
    stream: Stream,
    next_piece: u64,
    piece: [u8; PIECE],
    used: usize,
}

impl Entropy {
    pub fn new(node: u8) -> Entropy {
        Entropy {
            stream: Stream::new(0x45, node),
            next_piece: 0,
            piece: [0; PIECE],
            used: PIECE,
        }
    }

    pub fn draw(&mut self, mut into: &mut [u8]) {
        while !into.is_empty() {
            if self.used == PIECE {
                self.stream.piece(self.next_piece, &mut self.piece);
                self.next_piece += 1;
                self.used = 0;
            }
            let n = into.len().min(PIECE - self.used);
            let (now, later) = into.split_at_mut(n);
            now.copy_from_slice(&self.piece[self.used..self.used + n]);
            self.used += n;
            into = later;
        }
    }
}

#[cfg(test)]
mod tests {
    use super::*;

    #[test]
    fn zero_key_gives_the_known_stream() {
        let mut piece = [0; PIECE];
        Stream::new(0, 0).piece(0, &mut piece);
        assert_eq!(piece[..8], [0x76, 0xb8, 0xe0, 0xad, 0xa0, 0xf1, 0x3d, 0x90]);
        assert_eq!(
            piece[64..72],
            [0x9f, 0x07, 0xe7, 0xbe, 0x55, 0x51, 0x38, 0x7a]
        );
    }

    #[test]
    fn both_compilations_agree() {
        let (key, mut plain, mut piece) = (Stream::new(0x4c, 5), [0; PIECE], [0; PIECE]);
        sixteen_blocks(&key.key, 48, &mut plain);
        key.piece(3, &mut piece);
        assert_eq!(plain, piece);
    }

    #[test]
    fn draws_take_the_front() {
        let (mut whole, mut parts) = ([0; 2500], [0; 2500]);
        Entropy::new(3).draw(&mut whole);
        let mut entropy = Entropy::new(3);
        for part in parts.chunks_mut(97) {
            entropy.draw(part);
        }
        assert_eq!(whole, parts);
    }
}
