//! A stand-in for the crate `qtv_crypto`, which the QVM sources name and which is not at hand.

/// SHA3-256 of FIPS 202; lane (x, y) stands at x + 5y.
pub mod sha3 {
    const RATE: usize = 136;

    type Lanes = [u64; 25];

    // Section 3.2.5: the constants of iota come from this shift register.
    fn round_bit(register: &mut u8) -> u64 {
        let out = *register & 1;
        let carry = *register >> 7;
        *register = (*register << 1) ^ (carry * 0x71);
        u64::from(out)
    }

    fn theta(a: &mut Lanes) {
        let column = |x: usize| (0..5).fold(0, |sum, y| sum ^ a[x + 5 * y]);
        let parity: [u64; 5] = std::array::from_fn(column);
        for (i, lane) in a.iter_mut().enumerate() {
            *lane ^= parity[(i + 4) % 5] ^ parity[(i + 1) % 5].rotate_left(1);
        }
    }

    fn rho_and_pi(a: &mut Lanes) {
        let (mut x, mut y) = (1, 0);
        let mut moved = a[x];
        for t in 0..24u32 {
            (x, y) = (y, (2 * x + 3 * y) % 5);
            let turned = moved.rotate_left((t + 1) * (t + 2) / 2 % 64);
            moved = std::mem::replace(&mut a[x + 5 * y], turned);
        }
    }

    fn chi(a: &mut Lanes) {
        for row in a.chunks_exact_mut(5) {
            let old: [u64; 5] = std::array::from_fn(|x| row[x]);
            for x in 0..5 {
                row[x] = old[x] ^ (!old[(x + 1) % 5] & old[(x + 2) % 5]);
            }
        }
    }

    fn permute(a: &mut Lanes) {
        let mut register = 1;
        for _ in 0..24 {
            theta(a);
            rho_and_pi(a);
            chi(a);
            for j in 0..7 {
                a[0] ^= round_bit(&mut register) << ((1 << j) - 1);
            }
        }
    }

    pub fn sha3_256(message: &[u8]) -> [u8; 32] {
        let mut padded = message.to_vec();
        padded.push(0x06);
        padded.resize(padded.len().next_multiple_of(RATE), 0);
        *padded.last_mut().unwrap() |= 0x80;
        let mut a = [0; 25];
        for block in padded.chunks_exact(RATE) {
            for (lane, bytes) in a.iter_mut().zip(block.chunks_exact(8)) {
                *lane ^= u64::from_le_bytes(bytes.try_into().unwrap());
            }
            permute(&mut a);
        }
        let mut digest = [0; 32];
        for (bytes, lane) in digest.chunks_exact_mut(8).zip(a) {
            bytes.copy_from_slice(&lane.to_le_bytes());
        }
        digest
    }
}

/// Lengths of ML-DSA-65, FIPS 204; document 01 leaves the number to the host.
pub mod ml_dsa {
    pub const PUBLIC_KEY_BYTES: usize = 1952;
    pub const SIGNATURE_BYTES: usize = 3309;
}

/// Lengths of SLH-DSA with parameter set 128s, FIPS 205; document 01 leaves the number to the host.
pub mod slh_dsa {
    pub const PUBLIC_KEY_BYTES: usize = 32;
    pub const SIGNATURE_BYTES: usize = 7856;
}
