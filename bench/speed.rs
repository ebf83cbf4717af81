//! The work of bench/programs/tag_speed with a plain shift loop, with the processor's carry-less
//! multiplication, or with masked integer products, which need no table and no branch. bench/speed.py
//! builds it, checks that all forms print the same, and times them.
use std::arch::x86_64::{_mm_clmulepi64_si128, _mm_cvtsi128_si64, _mm_set_epi64x, _mm_unpackhi_epi64};

const START: u64 = 0x0123_4567_89ab_cdef;

/// A shift and a branch for each bit.
fn shift_loop(a: u64, b: u64) -> u64 {
    let (mut a, mut b, mut product) = (a, b, 0);
    while b != 0 {
        if b & 1 == 1 {
            product ^= a;
        }
        b >>= 1;
        let top = a >> 63;
        a <<= 1;
        if top == 1 {
            a ^= 27;
        }
    }
    product
}

#[target_feature(enable = "pclmulqdq,sse2")]
fn halves(a: u64, b: u64) -> (u64, u64) {
    let product = _mm_clmulepi64_si128::<0>(_mm_set_epi64x(0, a as i64), _mm_set_epi64x(0, b as i64));
    let high = _mm_unpackhi_epi64(product, product);
    (_mm_cvtsi128_si64(high) as u64, _mm_cvtsi128_si64(product) as u64)
}

/// One instruction for the product and two for the remainder.
#[target_feature(enable = "pclmulqdq,sse2")]
fn carry_less(a: u64, b: u64) -> u64 {
    let (high, low) = halves(a, b);
    let (higher, middle) = halves(high, 27);
    low ^ middle ^ halves(higher, 27).1
}

/// The product of two polynomials of 32 terms by integer products of every fourth term, whose carries
/// stay within the terms left out.
fn masked_32(a: u64, b: u64) -> u64 {
    let terms = |i: u32| 0x1111_1111_1111_1111u64 << i;
    let (a, b) = ([0, 1, 2, 3].map(|i| a & terms(i)), [0, 1, 2, 3].map(|i| b & terms(i)));
    (0..4).fold(0, |product, i| {
        let sum = (0..4).fold(0, |sum, j| sum ^ a[j].wrapping_mul(b[(4 + i - j) % 4]));
        product | (sum & terms(i as u32))
    })
}

/// Three such products of halves (Karatsuba), and the remainder.
fn masked(a: u64, b: u64) -> u64 {
    let (low, high) = (masked_32(a & 0xffff_ffff, b & 0xffff_ffff), masked_32(a >> 32, b >> 32));
    let middle = masked_32((a ^ a >> 32) & 0xffff_ffff, (b ^ b >> 32) & 0xffff_ffff) ^ low ^ high;
    let (low, high) = (low ^ middle << 32, high ^ middle >> 32);
    let over = high >> 63 ^ high >> 61 ^ high >> 60;
    let high = high ^ over;
    low ^ high ^ high << 1 ^ high << 3 ^ high << 4
}

/// Every fifth term of 64, in integer products of 128 bits, and the remainder.
fn masked_wide(a: u64, b: u64) -> u64 {
    let terms = |i: u32| 0x1084_2108_4210_8421u64 << i;
    let wide = |i: u32| 0x2108_4210_8421_0842_1084_2108_4210_8421u128 << i;
    let (a, b) = ([0, 1, 2, 3, 4].map(|i| a & terms(i)), [0, 1, 2, 3, 4].map(|i| b & terms(i)));
    let product = (0..5).fold(0u128, |product, i| {
        let sum = (0..5).fold(0, |sum, j| sum ^ u128::from(a[j]) * u128::from(b[(5 + i - j) % 5]));
        product | (sum & wide(i as u32))
    });
    let (low, high) = (product as u64, (product >> 64) as u64);
    let over = high >> 63 ^ high >> 61 ^ high >> 60;
    let high = high ^ over;
    low ^ high ^ high << 1 ^ high << 3 ^ high << 4
}

fn last_product(mul: impl Fn(u64, u64) -> u64, count: u32) -> u64 {
    (0..count).fold(START, |product, i| mul(product ^ u64::from(i), product))
}

fn hash(mul: impl Fn(u64, u64) -> u64, key: u64, text: &[u8]) -> u64 {
    let sum = text.chunks(8).fold(0, |sum, chunk| {
        let mut block = [0; 8];
        block[..chunk.len()].copy_from_slice(chunk);
        mul(sum ^ u64::from_be_bytes(block), key)
    });
    mul(sum ^ text.len() as u64, key)
}

fn last_tag(mul: impl Fn(u64, u64) -> u64 + Copy, count: u32) -> u64 {
    let text = std::hint::black_box([0x5a; 585]);
    (0..count).fold(START, |tag, i| hash(mul, tag, &text) ^ u64::from(i))
}

#[target_feature(enable = "pclmulqdq,sse2")]
fn with_carry_less(products: u32, tags: u32) -> (u64, u64) {
    let mul = |a, b| carry_less(a, b);
    (last_product(mul, products), last_tag(mul, tags))
}

fn main() {
    let words: Vec<String> = std::env::args().collect();
    let (products, tags) = (words[2].parse().unwrap(), words[3].parse().unwrap());
    let (product, tag) = match words[1].as_str() {
        "shift" => (last_product(shift_loop, products), last_tag(shift_loop, tags)),
        "masked" => (last_product(masked, products), last_tag(masked, tags)),
        "wide" => (last_product(masked_wide, products), last_tag(masked_wide, tags)),
        _ => {
            assert!(is_x86_feature_detected!("pclmulqdq"));
            unsafe { with_carry_less(products, tags) }
        }
    };
    println!("{product:016x} {tag:016x}");
}
