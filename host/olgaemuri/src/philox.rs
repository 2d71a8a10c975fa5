//! Philox4x64-10, a counter-based generator: Salmon, Moraes, Dror and Shaw, "Parallel Random Numbers: As Easy as 1, 2, 3" (2011).
//! Under one key different counters give different blocks, so streams that count apart never share one.

const MULTIPLIERS: [u64; 2] = [0xd2e7_470e_e14c_6c93, 0xca5a_8263_9512_1157];
const WEYL: [u64; 2] = [0x9e37_79b9_7f4a_7c15, 0xbb67_ae85_84ca_a73b];
const ROUNDS: usize = 10;

/// The block of four numbers that belongs to a counter, under a key.
pub(crate) fn block(mut counter: [u64; 4], mut key: [u64; 2]) -> [u64; 4] {
    for _ in 0..ROUNDS {
        counter = round(counter, key);
        key = [0, 1].map(|half: usize| key[half].wrapping_add(WEYL[half]));
    }
    counter
}

fn round([a, b, c, d]: [u64; 4], [left, right]: [u64; 2]) -> [u64; 4] {
    let (high_a, low_a) = product(MULTIPLIERS[0], a);
    let (high_c, low_c) = product(MULTIPLIERS[1], c);
    [high_c ^ b ^ left, low_c, high_a ^ d ^ right, low_a]
}

/// The high and the low half of a product.
fn product(one: u64, other: u64) -> (u64, u64) {
    let product = u128::from(one) * u128::from(other);
    ((product >> 64) as u64, product as u64)
}

#[cfg(test)]
mod tests {
    use super::*;

    /// The known answers that the authors publish with Random123 (`kat_vectors`, rows `philox4x64 10`).
    #[test]
    fn known_answers() {
        let zeros = [
            0x1655_4d9e_ca36_314c,
            0xdb20_fe9d_672d_0fdc,
            0xd7e7_72ce_e186_176b,
            0x7e68_b68a_ec7b_a23b,
        ];
        assert_eq!(block([0; 4], [0; 2]), zeros);
        let ones = [
            0x87b0_92c3_013f_e90b,
            0x438c_3c67_be8d_0224,
            0x9cc7_d7c6_9cd7_77b6,
            0xa09c_aebf_594f_0ba0,
        ];
        assert_eq!(block([u64::MAX; 4], [u64::MAX; 2]), ones);
        let counter = [
            0x243f_6a88_85a3_08d3,
            0x1319_8a2e_0370_7344,
            0xa409_3822_299f_31d0,
            0x082e_fa98_ec4e_6c89,
        ];
        let digits_of_pi = [
            0xa528_f454_03e6_1d95,
            0x38c7_2dbd_566e_9788,
            0xa5a1_610e_72fd_18b5,
            0x57bd_43b5_e52b_7fe6,
        ];
        let key = [0x4528_21e6_38d0_1377, 0xbe54_66cf_34e9_0c6c];
        assert_eq!(block(counter, key), digits_of_pi);
    }
}
