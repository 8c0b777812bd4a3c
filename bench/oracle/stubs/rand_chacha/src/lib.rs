//! Debian's `rand_chacha` as it is. With the feature `set`, 64-bit draws can be set for a test: they come first, and the
//! stream moves as if it had given them.
#[cfg(not(feature = "set"))]
pub use debian::ChaCha8Rng;

#[cfg(feature = "set")]
pub use set::{ChaCha8Rng, set_draws};

#[cfg(feature = "set")]
mod set {
    use rand_core::{Error, RngCore, SeedableRng};
    use std::cell::RefCell;

    thread_local! {
        static SET: RefCell<Vec<u64>> = const { RefCell::new(Vec::new()) };
    }

    /// The next draws of whatever stream draws next.
    pub fn set_draws(draws: &[u64]) {
        SET.with(|s| *s.borrow_mut() = draws.iter().rev().copied().collect());
    }

    #[derive(Debug, Clone)]
    pub struct ChaCha8Rng(debian::ChaCha8Rng);

    impl ChaCha8Rng {
        pub fn get_seed(&self) -> [u8; 32] {
            self.0.get_seed()
        }
        pub fn get_word_pos(&self) -> u128 {
            self.0.get_word_pos()
        }
        pub fn set_word_pos(&mut self, words: u128) {
            self.0.set_word_pos(words);
        }
    }

    impl SeedableRng for ChaCha8Rng {
        type Seed = [u8; 32];
        fn from_seed(key: [u8; 32]) -> Self {
            Self(debian::ChaCha8Rng::from_seed(key))
        }
    }

    impl RngCore for ChaCha8Rng {
        fn next_u64(&mut self) -> u64 {
            let own = self.0.next_u64();
            SET.with(|s| s.borrow_mut().pop().unwrap_or(own))
        }
        fn next_u32(&mut self) -> u32 {
            self.0.next_u32()
        }
        fn fill_bytes(&mut self, to: &mut [u8]) {
            self.0.fill_bytes(to);
        }
        fn try_fill_bytes(&mut self, to: &mut [u8]) -> Result<(), Error> {
            self.0.try_fill_bytes(to)
        }
    }
}
