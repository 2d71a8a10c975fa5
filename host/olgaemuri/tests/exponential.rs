//! Thresholds from a seed: fixed values, and the exponential distribution with mean 1.

use olgaemuri::{Exponential, Session};

/// Bits, found by another program (in Python, from the description at `Exponential`).
#[test]
fn the_same_on_every_machine() {
    let bits = |seed, stream, count| -> Vec<u64> {
        let thresholds = Exponential::new(seed, stream).take(count);
        thresholds.map(f64::to_bits).collect()
    };
    let first = [
        0x3fcd_617a_55a1_1f93,
        0x3fdc_c552_8492_f986,
        0x3fb8_4145_8999_35d7,
        0x3ff9_6aca_c7fa_8c57,
        0x3ff3_130b_6220_d316,
    ];
    assert_eq!(bits(1, 0, 5), first);
    let last = [0x4012_b3fa_4bcf_2542, 0x3fdb_8688_7f40_d6cf];
    assert_eq!(bits(u64::MAX, u64::MAX, 2), last);
    assert_eq!(checksum(7, 0, 100_000), 0x40ed_ddeb_fbb8_6917);
}

/// FNV-1a over the bytes of so many thresholds.
fn checksum(seed: u64, stream: u64, count: usize) -> u64 {
    let thresholds = Exponential::new(seed, stream).take(count);
    let bytes = thresholds.flat_map(f64::to_le_bytes);
    bytes.fold(0xcbf2_9ce4_8422_2325, |sum, byte| {
        (sum ^ u64::from(byte)).wrapping_mul(0x0100_0000_01b3)
    })
}

const MILLION: usize = 1_000_000;

/// How far the sorted sample's distribution is from the exponential one with mean 1, at most (Kolmogorov and Smirnov).
fn distance(sorted: &[f64]) -> f64 {
    let count = sorted.len() as f64;
    let off = sorted.iter().zip(0..).map(|(value, place)| {
        let expected = -(-value).exp_m1();
        let place = f64::from(place);
        (expected - place / count).max((place + 1.0) / count - expected)
    });
    off.fold(0.0, f64::max)
}

fn is_exponential(mut sample: Vec<f64>) {
    let count = sample.len() as f64;
    assert!(sample.iter().all(|value| *value > 0.0 && *value < 37.0));
    let mean = sample.iter().sum::<f64>() / count;
    // the mean of so many has the standard deviation 1 / sqrt(count)
    assert!((mean - 1.0).abs() * count.sqrt() < 3.0, "{mean}");
    sample.sort_by(f64::total_cmp);
    // a greater distance comes once in a hundred samples
    let distance = distance(&sample) * count.sqrt();
    assert!(distance < 1.628, "{distance}");
}

#[test]
fn a_million_of_one_stream_are_exponential() {
    is_exponential(Exponential::new(1, 0).take(MILLION).collect());
    is_exponential(Exponential::new(2, 5).take(MILLION).collect());
}

/// The first thresholds of a million streams, which is what a sweep draws.
#[test]
fn a_million_streams_are_exponential() {
    let first = |stream| Exponential::new(1, stream).next();
    is_exponential((0..MILLION as u64).filter_map(first).collect());
}

/// Neighbours in a stream, and the same places of neighbouring streams, do not go together.
#[test]
fn thresholds_do_not_depend_on_each_other() {
    let one: Vec<f64> = Exponential::new(1, 0).take(MILLION + 1).collect();
    let other: Vec<f64> = Exponential::new(1, 1).take(MILLION).collect();
    for other in [&one[1..], &other] {
        let products = one.iter().zip(other).map(|(a, b)| (a - 1.0) * (b - 1.0));
        let correlation = products.sum::<f64>() / MILLION as f64;
        assert!(correlation.abs() * 1000.0 < 3.0, "{correlation}");
    }
}

#[test]
fn no_draw_refuses_them() {
    let mut text = String::from("create machine=0 policy=restart\n");
    text += &"set machine=0 cause=1 now=0 hazard=zero\n".repeat(2000);
    let session: Session = text.parse().unwrap();
    let thresholds: Vec<f64> = Exponential::new(3, 0).take(2000).collect();
    let session = session.with_thresholds(thresholds);
    assert!(session.run().answers().all(|answer| answer.is_accepted()));
    assert_eq!(session.draws(), 2000);
}
