//! SHA-256 (FIPS 180-4), as the kit's crate of this name answers it.
#![allow(warnings)]
pub struct Sha256;
pub trait Digest {
    fn digest(bytes: &[u8]) -> [u8; 32];
}


fn primes(count: usize) -> Vec<u64> {
    (2u64..).filter(|n| (2..*n).take_while(|d| d * d <= *n).all(|d| n % d != 0)).take(count).collect()
}

// The cube root of a prime in 64 bits, 32 of them behind the point.
fn cube_fraction(prime: u64) -> u32 {
    let (mut low, mut high) = (0u128, 8u128 << 32);
    while high - low > 1 {
        let mid = (low + high) / 2;
        if mid * mid * mid <= (prime as u128) << 96 { low = mid } else { high = mid }
    }
    low as u32
}

fn square_fraction(prime: u64) -> u32 {
    let (mut low, mut high) = (0u128, 8u128 << 32);
    while high - low > 1 {
        let mid = (low + high) / 2;
        if mid * mid <= (prime as u128) << 64 { low = mid } else { high = mid }
    }
    low as u32
}

impl Digest for Sha256 {
    fn digest(bytes: &[u8]) -> [u8; 32] {
        let rounds: Vec<u32> = primes(64).into_iter().map(cube_fraction).collect();
        let mut state: Vec<u32> = primes(8).into_iter().map(square_fraction).collect();
        let mut padded = bytes.to_vec();
        padded.push(0x80);
        while padded.len() % 64 != 56 {
            padded.push(0);
        }
        padded.extend_from_slice(&(bytes.len() as u64 * 8).to_be_bytes());
        for block in padded.chunks(64) {
            let mut w: Vec<u32> = block.chunks(4).map(|it| u32::from_be_bytes(it.try_into().unwrap())).collect();
            for i in 16..64 {
                let s0 = w[i - 15].rotate_right(7) ^ w[i - 15].rotate_right(18) ^ (w[i - 15] >> 3);
                let s1 = w[i - 2].rotate_right(17) ^ w[i - 2].rotate_right(19) ^ (w[i - 2] >> 10);
                w.push(w[i - 16].wrapping_add(s0).wrapping_add(w[i - 7]).wrapping_add(s1));
            }
            let mut v = state.clone();
            for i in 0..64 {
                let s1 = v[4].rotate_right(6) ^ v[4].rotate_right(11) ^ v[4].rotate_right(25);
                let ch = (v[4] & v[5]) ^ (!v[4] & v[6]);
                let one = v[7].wrapping_add(s1).wrapping_add(ch).wrapping_add(rounds[i]).wrapping_add(w[i]);
                let s0 = v[0].rotate_right(2) ^ v[0].rotate_right(13) ^ v[0].rotate_right(22);
                let two = s0.wrapping_add((v[0] & v[1]) ^ (v[0] & v[2]) ^ (v[1] & v[2]));
                v = vec![one.wrapping_add(two), v[0], v[1], v[2], v[3].wrapping_add(one), v[4], v[5], v[6]];
            }
            for i in 0..8 {
                state[i] = state[i].wrapping_add(v[i]);
            }
        }
        let mut out = [0; 32];
        for (i, word) in state.iter().enumerate() {
            out[4 * i..4 * i + 4].copy_from_slice(&word.to_be_bytes());
        }
        out
    }
}
