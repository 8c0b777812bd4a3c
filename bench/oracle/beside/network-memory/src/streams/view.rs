//! The words that each link's stream has given.
use super::LinkStreams;
use crate::NodeIndex;

impl LinkStreams {
    /// From, to and words of each stream that was ever used, in order.
    pub fn words(&self) -> impl Iterator<Item = (NodeIndex, NodeIndex, u128)> + '_ {
        self.links.iter().map(|(ends, stream)| (ends.0, ends.1, stream.get_word_pos()))
    }
}
