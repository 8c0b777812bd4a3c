//! The types that the original's files name from a crate that is not among them. Only shards, classes and messages matter
//! to gossip; the rest is here so that requests and notifications compile.
use hyperscale_hbor::{HborDecode, HborEncode};
use std::collections::BTreeMap;

const KEY: usize = 16;

/// A shard by its number, and the key bytes that an id takes in: the first is its depth, the others its path.
#[derive(Debug, Clone, Copy, PartialEq, Eq, PartialOrd, Ord, Hash)]
pub struct ShardId {
    pub number: u8,
    used: u8,
    key: [u8; KEY],
}

impl ShardId {
    /// The key has 16 bytes at most.
    pub fn of_key(number: u8, key: &[u8]) -> Self {
        let mut shard = Self { number, used: key.len() as u8, key: [0; KEY] };
        shard.key[..key.len()].copy_from_slice(key);
        shard
    }

    fn halves(&self) -> (&[u8], &[u8]) {
        let key = &self.key[..self.used as usize];
        key.split_at(key.len().min(1))
    }

    pub fn depth(&self) -> KeyBytes {
        KeyBytes(self.halves().0.to_vec())
    }

    pub fn path(&self) -> KeyBytes {
        KeyBytes(self.halves().1.to_vec())
    }
}

/// A part of a key, as it was lent.
pub struct KeyBytes(Vec<u8>);

impl KeyBytes {
    pub fn to_le_bytes(self) -> Vec<u8> {
        self.0
    }
}

/// Eight classes. The original speaks of two by name.
#[derive(Debug, Clone, Copy, PartialEq, Eq, PartialOrd, Ord, Hash)]
pub enum MessageClass {
    Zero,
    One,
    Two,
    Three,
    Four,
    Five,
    Recovery,
    Bulk,
}

impl MessageClass {
    pub const COUNT: usize = 8;
    pub const ALL: [Self; Self::COUNT] = [Self::Zero, Self::One, Self::Two, Self::Three, Self::Four, Self::Five, Self::Recovery, Self::Bulk];
}

#[derive(Debug, Clone, Copy, PartialEq, Eq)]
pub enum GossipScope {
    Shard,
    Global,
}

pub trait NetworkMessage: HborEncode + HborDecode + Send + Sync {
    fn message_type_id() -> &'static str;
    fn class() -> MessageClass;
}

pub trait GossipMessage: NetworkMessage + Clone {
    const SCOPE: GossipScope;
    fn source_shard(&self) -> Option<ShardId> {
        None
    }
    fn dedup_key(&self) -> Option<u64> {
        None
    }
}

pub mod network {
    pub trait Request: super::NetworkMessage {
        type Response: super::NetworkMessage;
        fn is_empty_response(response: &Self::Response) -> bool;
    }
}
pub use network::Request;

#[derive(Debug, Clone, Copy, PartialEq, Eq, PartialOrd, Ord, Hash)]
pub struct ValidatorId(pub u64);

impl std::fmt::Display for ValidatorId {
    fn fmt(&self, f: &mut std::fmt::Formatter<'_>) -> std::fmt::Result {
        self.0.fmt(f)
    }
}

#[derive(Debug, Clone, Copy, PartialEq, Eq, Hash)]
pub struct ConsensusPublicKey;

pub struct TopologySnapshot;

#[derive(Debug, Default)]
pub struct RoutingCommittees(pub BTreeMap<ShardId, Vec<ValidatorId>>);

impl RoutingCommittees {
    pub fn new() -> Self {
        Self(BTreeMap::new())
    }
}

#[derive(Debug, Clone, Copy, PartialEq, Eq, Hash)]
pub struct Hash([u8; 32]);

impl Hash {
    pub fn from_bytes(bytes: &[u8]) -> Self {
        Self(blake3::hash(bytes).into())
    }
    pub const fn as_bytes(&self) -> &[u8; 32] {
        &self.0
    }
}

pub mod cache {
    use std::sync::Mutex;

    /// The newest entries, oldest first.
    pub struct BoundedCache<K, V> {
        most: usize,
        entries: Mutex<Vec<(K, V)>>,
    }

    pub fn bounded_cache<K: Eq + Clone, V: Clone>(most: usize) -> BoundedCache<K, V> {
        BoundedCache { most, entries: Mutex::new(Vec::new()) }
    }

    impl<K: Eq + Clone, V: Clone> BoundedCache<K, V> {
        pub fn get(&self, key: &K) -> Option<V> {
            let entries = self.entries.lock().unwrap();
            entries.iter().find(|e| e.0 == *key).map(|e| e.1.clone())
        }
        pub fn insert(&self, key: K, value: V) {
            let mut entries = self.entries.lock().unwrap();
            entries.retain(|e| e.0 != key);
            entries.push((key, value));
            let over = entries.len().saturating_sub(self.most);
            entries.drain(..over);
        }
        pub fn remove(&self, key: &K) {
            self.entries.lock().unwrap().retain(|e| e.0 != *key);
        }
    }
}
