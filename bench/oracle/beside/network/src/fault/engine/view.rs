//! What a script reads and sets of the engine's own fields.
use super::{Engine, RuleHandle};
use rand::SeedableRng;
use rand_chacha::ChaCha8Rng;
use std::sync::atomic::Ordering::Relaxed;

impl Engine {
    /// The fault stream anew, with this key in place of the one that the seed was spread to.
    pub fn with_key(&mut self, key: [u8; 32]) {
        *self.rng.get_mut() = ChaCha8Rng::from_seed(key);
    }

    /// Words that the fault stream has given.
    pub fn words(&self) -> u128 {
        self.rng.lock().get_word_pos()
    }

    /// Id and fired count of each rule, in order.
    pub fn rules(&self) -> impl Iterator<Item = (u64, u64)> + '_ {
        self.rules.iter().map(|rule| (rule.id, rule.fired.load(Relaxed)))
    }

    /// A fired count anew.
    pub fn set_fired(&self, id: u64, fired: u64) {
        if let Some(rule) = self.rules.iter().find(|rule| rule.id == id) {
            rule.fired.store(fired, Relaxed);
        }
    }

    /// Block windows of all pairs.
    pub fn windows(&self) -> usize {
        self.blocked.values().map(|windows| windows.len()).sum()
    }
}

impl RuleHandle {
    pub const fn id(&self) -> u64 {
        self.id
    }
}
