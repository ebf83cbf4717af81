//! GF(2^64) modulo x^64 + x^4 + x^3 + x + 1, the hash and the tag.
//! A hash key is made once per lane and end.  It multiplies by 4-bit tables, or by the
//! processor's carry-less product where that form is asked for.

const REDUCER: u64 = 0x1b;

#[derive(Clone, Copy, PartialEq, Eq, Debug)]
pub enum Form {
    Tables,
    CarryLess,
}

impl Form {
    /// Whether this machine can compute in this form.
    pub fn is_here(self) -> bool {
        match self {
            Form::Tables => true,
            Form::CarryLess => carry_less::is_here(),
        }
    }
}

/// A key with what its multiplication needs.
pub enum HashKey {
    /// `tables[i][v]` is the product of the key and `v * x^(4i)`.
    Tables(Box<[[u64; 16]; 16]>),
    CarryLess(u64),
}

fn times_x(a: u64) -> u64 {
    a << 1 ^ if a >> 63 == 1 { REDUCER } else { 0 }
}

fn tables_of(key: u64) -> Box<[[u64; 16]; 16]> {
    let mut tables = Box::new([[0; 16]; 16]);
    let mut power = key;
    for table in tables.iter_mut() {
        for bit in 0..4 {
            for v in 0..1 << bit {
                table[v | 1 << bit] = table[v] ^ power;
            }
            power = times_x(power);
        }
    }
    tables
}

#[inline]
fn times(tables: &[[u64; 16]; 16], a: u64) -> u64 {
    tables.iter().enumerate().fold(0, |sum, (i, table)| {
        sum ^ table[(a >> (4 * i) & 15) as usize]
    })
}

/// The text as blocks of eight octets, padded with zeros, then its length.
#[inline(always)]
fn blocks(text: &[u8]) -> impl Iterator<Item = u64> {
    let (whole, rest) = text.as_chunks::<8>();
    let padded = (!rest.is_empty()).then(|| {
        let mut last = [0; 8];
        last[..rest.len()].copy_from_slice(rest);
        u64::from_be_bytes(last)
    });
    whole
        .iter()
        .map(|block| u64::from_be_bytes(*block))
        .chain(padded)
        .chain([text.len() as u64])
}

impl HashKey {
    pub fn new(key: u64, form: Form) -> HashKey {
        match form {
            Form::Tables => HashKey::Tables(tables_of(key)),
            Form::CarryLess => HashKey::CarryLess(key),
        }
    }

    /// m1 * k^n + .. + mn * k over the text's blocks.
    pub fn hash(&self, text: &[u8]) -> u64 {
        match self {
            HashKey::Tables(tables) => blocks(text).fold(0, |h, m| times(tables, h ^ m)),
            HashKey::CarryLess(key) => carry_less::hash(*key, text),
        }
    }

    pub fn tag(&self, text: &[u8], mask: u64) -> u64 {
        self.hash(text) ^ mask
    }
}

#[cfg(target_arch = "x86_64")]
mod carry_less {
    use super::{REDUCER, blocks};
    use std::arch::x86_64::{
        __m128i, _mm_clmulepi64_si128, _mm_cvtsi64_si128, _mm_cvtsi128_si64, _mm_xor_si128,
    };

    pub fn is_here() -> bool {
        is_x86_feature_detected!("pclmulqdq") && is_x86_feature_detected!("sse2")
    }

    /// The product of the low halves: 128 bits, then two folds of the part above x^64.
    #[inline]
    #[target_feature(enable = "pclmulqdq,sse2")]
    fn times(a: __m128i, b: __m128i, reducer: __m128i) -> __m128i {
        let product = _mm_clmulepi64_si128(a, b, 0x00);
        let first = _mm_clmulepi64_si128(product, reducer, 0x01);
        let second = _mm_clmulepi64_si128(first, reducer, 0x01);
        _mm_xor_si128(product, _mm_xor_si128(first, second))
    }

    #[target_feature(enable = "pclmulqdq,sse2")]
    fn hash_here(key: u64, text: &[u8]) -> u64 {
        let reducer = _mm_cvtsi64_si128(REDUCER as i64);
        let key = _mm_cvtsi64_si128(key as i64);
        let mut h = _mm_cvtsi64_si128(0);
        for m in blocks(text) {
            h = times(_mm_xor_si128(h, _mm_cvtsi64_si128(m as i64)), key, reducer);
        }
        _mm_cvtsi128_si64(h) as u64
    }

    pub fn hash(key: u64, text: &[u8]) -> u64 {
        assert!(is_here());
        // SAFETY: the processor has the two features, as the line above has just tested.
        unsafe { hash_here(key, text) }
    }
}

#[cfg(not(target_arch = "x86_64"))]
mod carry_less {
    pub fn is_here() -> bool {
        false
    }

    pub fn hash(_key: u64, _text: &[u8]) -> u64 {
        unreachable!("the form is refused where it isn't here")
    }
}

#[cfg(test)]
mod tests {
    use super::*;

    /// The product, bit by bit.
    fn mul(a: u64, b: u64) -> u64 {
        (0..64).rev().fold(0, |sum, i| {
            times_x(sum) ^ if b >> i & 1 == 1 { a } else { 0 }
        })
    }

    #[test]
    fn products_of_section_d() {
        let top = 0x8000_0000_0000_0000;
        for (a, b, product) in [(3, 3, 5), (top, 2, 0x1b), (top, top, 0xc000_0000_0000_005a)] {
            assert_eq!(mul(a, b), product);
            assert_eq!(times(&tables_of(a), b), product);
        }
    }

    #[test]
    fn hashes_of_section_d() {
        let forged = [
            0x01, 0, 0, 0, 0, 0x11, 0, 0, 0, 0, 0, 0, 0, 0, 0, 8, 3, 0, 0, 0, 0, 0, 0, 0x80, 0,
            0x80, 0, 0, 0, 0, 0, 0, 1,
        ];
        for form in [Form::Tables, Form::CarryLess] {
            if form.is_here() {
                let key = HashKey::new(2, form);
                assert_eq!(key.hash(&[]), 0);
                assert_eq!(key.hash(&[1]), 0x0400_0000_0000_0002);
                assert_eq!(key.hash(&forged), 0x7000_0000_0440_0942);
            }
        }
    }

    #[test]
    fn the_forms_agree() {
        let mut x = 1u64;
        let mut next = || {
            x = x
                .wrapping_mul(6_364_136_223_846_793_005)
                .wrapping_add(1_442_695_040_888_963_407);
            x ^ x >> 29
        };
        for length in 0..200 {
            let key = next();
            let text: Vec<u8> = (0..length).map(|_| next() as u8).collect();
            let plain = blocks(&text).fold(0, |h, m| mul(h ^ m, key));
            assert_eq!(HashKey::new(key, Form::Tables).hash(&text), plain);
            if Form::CarryLess.is_here() {
                assert_eq!(HashKey::new(key, Form::CarryLess).hash(&text), plain);
            }
        }
    }
}
