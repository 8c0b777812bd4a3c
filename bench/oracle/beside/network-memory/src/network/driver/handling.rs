//! Handlers that write down what they hear, and the flush that is told from it.
use super::*;
use hyperscale_hbor::{HborDecode, HborEncode};
use hyperscale_types::{GossipMessage, GossipScope, NetworkMessage};
use std::cell::RefCell;

/// What a handler heard: at which till, of which type, what, and for a gossip handler its shard and where it came from.
#[derive(Debug, PartialEq)]
pub struct Heard {
    to: NodeIndex,
    kind: usize,
    tag: u64,
    from: Option<(Option<ShardId>, Provenance)>,
}

thread_local! {
    static NAMES: RefCell<Vec<&'static str>> = const { RefCell::new(Vec::new()) };
}

/// The opening's type names: a message type asks for its own.
pub fn set_names(names: &[&'static str]) {
    NAMES.set(names.to_vec());
}

/// A message of type number `K`: a tag.
#[derive(Clone)]
struct Tagged<const K: usize>(u64);

impl<const K: usize> HborEncode for Tagged<K> {
    fn bytes(&self) -> Vec<u8> {
        self.0.to_le_bytes().to_vec()
    }
}

impl<const K: usize> HborDecode for Tagged<K> {
    fn of_bytes(bytes: &[u8]) -> Option<Self> {
        bytes.try_into().ok().map(|b| Self(u64::from_le_bytes(b)))
    }
}

impl<const K: usize> NetworkMessage for Tagged<K> {
    fn message_type_id() -> &'static str {
        NAMES.with_borrow(|names| names[K])
    }
    fn class() -> MessageClass {
        MessageClass::Zero
    }
}

impl<const K: usize> GossipMessage for Tagged<K> {
    const SCOPE: GossipScope = GossipScope::Global;
}

/// A host handler of type `kind`, as a type of the original's.
fn listen_at_host(registry: &HandlerRegistry, kind: usize, hear: impl Fn(u64) + Send + Sync + 'static) {
    macro_rules! each {
        ($($k:literal)*) => {
            match kind {
                $($k => registry.register_host_gossip_handler(move |m: Tagged<$k>| hear(m.0)),)*
                _ => unreachable!("16 types"),
            }
        };
    }
    each!(0 1 2 3 4 5 6 7 8 9 10 11 12 13 14 15)
}

impl Driver {
    /// Gossip and host handlers of the types in two masks, in place of those that the till has.
    pub fn set_handlers(&mut self, to: NodeIndex, gossip: u32, host: u32) {
        let place = &mut self.net.registries[to as usize];
        let registry = Arc::new(HandlerRegistry::new((*place.hosted_shards()).clone()));
        *place = Arc::clone(&registry);
        for (kind, name) in self.names.iter().enumerate() {
            if gossip >> kind & 1 == 1 {
                let heard = Arc::clone(&self.heard);
                let hear = move |payload: Vec<u8>, shard: Option<ShardId>, by: Provenance| {
                    heard.lock().unwrap().push(Heard { to, kind, tag: tag_of(&payload), from: Some((shard, by)) });
                    None
                };
                registry.register_raw_gossip(name, Arc::new(hear));
            }
            if host >> kind & 1 == 1 {
                let heard = Arc::clone(&self.heard);
                listen_at_host(&registry, kind, move |tag| heard.lock().unwrap().push(Heard { to, kind, tag, from: None }));
            }
        }
    }

    /// Flushes with a log that keeps everything, so that each landing is seen; the opening's own log then takes the same
    /// records. Gives the flush's two counts and the records.
    fn landings(&mut self, now: u64) -> (usize, usize, Vec<DeliveryRecord>) {
        let whole = DeliveryLog { capacity: usize::MAX, ..DeliveryLog::default() };
        let own = std::mem::replace(&mut self.net.deliveries, whole);
        let (delivered, stats) = self.net.flush_gossip(time(now));
        let landed = std::mem::replace(&mut self.net.deliveries, own).drain().records;
        landed.iter().for_each(|record| self.net.deliveries.record(record.clone()));
        let others = [stats.messages_sent, stats.messages_dropped_loss, stats.messages_retransmitted];
        assert_eq!((others, stats.messages_dropped_fault, stats.messages_deduplicated), ([0; 3], 0, 0));
        (delivered, stats.messages_dropped_partition as usize, landed)
    }

    /// Is the record this copy's?
    fn is_of(&self, record: &DeliveryRecord, c: &Copied) -> bool {
        let ends = (record.from, record.to, self.kind_of(record.message_type), record.class as usize);
        let rest = (ns(record.sent_at), ns(record.delivered_at), record.shard.map(|s| s.number), record.wire_bytes);
        ends == (c.from, c.to, c.kind, c.class) && rest == (c.sent, c.time, c.shard, c.wire)
    }

    /// Flushes, and tells of each copy that was due what became of it.
    pub fn flush(&mut self, now: u64, o: &mut String) -> Option<()> {
        let due: Vec<Copied> = self.waiting().into_iter().take_while(|c| c.time <= now).collect();
        self.heard.lock().unwrap().clear();
        let (delivered, dropped, landed) = self.landings(now);
        let _ = writeln!(o, "flush delivered={delivered} dropped={dropped} rows={}", landed.len());
        let heard = std::mem::take(&mut *self.heard.lock().unwrap());
        let (mut records, mut heard) = (landed.iter().peekable(), heard.into_iter().peekable());
        let (mut drops, mut handled) = (0, 0);
        for c in &due {
            if records.next_if(|r| self.is_of(r, c)).is_none() {
                drops += 1;
                let _ = writeln!(o, "drop {c}");
                continue;
            }
            let shard = c.shard.map(|s| self.shards[s as usize]);
            let by_gossip = Heard { to: c.to, kind: c.kind, tag: c.tag, from: Some((shard, peer(c.from))) };
            let by_host = Heard { from: None, ..by_gossip };
            let mut by = String::new();
            if heard.next_if_eq(&by_gossip).is_some() {
                by.push('g');
            }
            // a host handler hears no shard: what it hears is of a global copy, or the assertion below fails
            if c.shard.is_none() && heard.next_if_eq(&by_host).is_some() {
                by.push('h');
            }
            handled += usize::from(!by.is_empty());
            let _ = writeln!(o, "row {c} {}", if by.is_empty() { "-" } else { &by });
        }
        // the lines account for everything that the original did
        assert!(records.next().is_none() && heard.next().is_none());
        assert_eq!((handled, drops), (delivered, dropped));
        Some(())
    }
}
