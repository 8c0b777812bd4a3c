//! floats: the fractions and real ranges of the stub `rand`, beside those of Debian's `rand` 0.8, which follow the same rule within document 01's limits.
use debian_rand::Rng;
use rand::{RngExt, SeedableRng};
use rand_chacha::ChaCha8Rng;

const ROUNDS: u32 = 1_000_000;

/// Both draw from the same stream.
fn main() {
    let mut here = ChaCha8Rng::from_seed([9; 32]);
    let mut there = here.clone();
    for i in 0..ROUNDS {
        let j = [0.015, f64::from(i) * 60e-6 + 1e-12, 1e-9 / 1_048_576.0, 60.0][i as usize % 4];
        let fractions: (f64, f64) = (here.random(), there.r#gen());
        let jitters = (here.random_range(-j..j), there.gen_range(-j..j));
        let spikes = (here.random_range(10.0..50.0), there.gen_range(10.0..50.0));
        for (a, b) in [fractions, jitters, spikes] {
            assert_eq!(a.to_bits(), b.to_bits(), "round {i}");
        }
    }
    assert_eq!(here.get_word_pos(), there.get_word_pos());
    println!("{} draws, 0 differ from rand 0.8", 3 * ROUNDS);
}
