//! The archive's C functions, and a safe wrapper that owns the memory they are lent.
//! Nothing checks these declarations against the source: include/gossip.h is their other reading.
//! The program says what a `Table` is: a `Vec`, or for the fuzz one that stands against guard pages.
#![allow(dead_code)]
use crate::Table;

#[repr(C)]
#[derive(Clone, Copy, Debug)]
pub struct NetworkConfig {
    pub latency: u64,
    pub jitter: f64,
    pub loss: f64,
    pub duplicate: f64,
    pub replay: f64,
    pub spike: f64,
}

#[repr(C)]
#[derive(Clone, Copy, Debug)]
pub struct NetworkSizes {
    pub tills: u64,
    pub types: u64,
    pub classes: u64,
    pub shards: u64,
    pub seen: u64,
    pub waiting: u64,
    pub log: u64,
}

#[repr(C)]
#[derive(Clone, Copy, Debug)]
pub struct RegionPlan {
    pub planned: u64,
    pub regions: u64,
    pub seed: u64,
}

#[repr(C)]
#[derive(Clone, Copy, Debug)]
pub struct TableSizes {
    pub number: u64,
    pub setup: u64,
    pub net: u64,
    pub names: u64,
    pub tills: u64,
    pub words: u64,
    pub keys: u64,
    pub prices: u64,
    pub seen: u64,
    pub waiting: u64,
    pub rings: u64,
    pub rules: u64,
    pub blocks: u64,
    pub log: u64,
}

#[repr(C)]
#[derive(Clone, Copy, Debug)]
pub struct Done {
    pub number: u64,
}

#[repr(C)]
#[derive(Clone, Copy, Debug)]
pub struct Value {
    pub number: u64,
    pub found: u64,
    pub value: u64,
}

/// How many marks, or copies, stand in the output.
#[repr(C)]
#[derive(Clone, Copy, Debug)]
pub struct Counted {
    pub number: u64,
    pub count: u64,
}

#[repr(C)]
#[derive(Clone, Copy, Debug)]
pub struct Accepted {
    pub number: u64,
    pub sent: u64,
    pub deduplicated: u64,
    pub partition: u64,
    pub loss: u64,
    pub fault: u64,
}

#[repr(C)]
#[derive(Clone, Copy, Debug)]
pub struct Flushed {
    pub number: u64,
    pub rows: u64,
    pub delivered: u64,
    pub dropped: u64,
}

#[repr(C)]
#[derive(Clone, Copy, Debug)]
pub struct Tally {
    pub deliveries: u64,
    pub bytes: u64,
}

#[repr(C)]
#[derive(Clone, Copy, Debug)]
pub struct Drained {
    pub number: u64,
    pub records: u64,
    pub forced: u64,
    pub tallies: [Tally; 8],
}

#[repr(C)]
#[derive(Clone, Copy, Debug)]
pub struct Tallied {
    pub number: u64,
    pub deliveries: u64,
    pub bytes: u64,
}

#[repr(C)]
#[derive(Clone, Copy, Debug)]
pub struct Hashed {
    pub number: u32,
    pub words: [u32; 8],
}

/// A slice as C takes it: a pointer, then a length.
macro_rules! declare {
    ($($name:ident ( $($arg:tt)* ) -> $out:ty;)*) => {
        unsafe extern "C" { $(fn $name($($arg)*) -> $out;)* }
    };
}
type P = *const u64;
type M = *mut u64;

declare! {
    gossip_table_sizes(sizes: NetworkSizes, plan: RegionPlan) -> TableSizes;
    gossip_open(config: NetworkConfig, sizes: NetworkSizes, plan: RegionPlan, seed: u64, key: *const u8, key_n: usize, masks: P, masks_n: usize,
        names: *const u8, names_n: usize, setup: M, setup_n: usize, net: M, net_n: usize, tills: M, tills_n: usize, words: M, words_n: usize,
        keys: *mut u32, keys_n: usize, prices: M, prices_n: usize, seen: M, seen_n: usize, waiting: P, waiting_n: usize, rings: M, rings_n: usize,
        rules: P, rules_n: usize, blocks: P, blocks_n: usize, log: M, log_n: usize) -> Done;
    gossip_accept(setup: P, setup_n: usize, net: M, net_n: usize, names: *const u8, names_n: usize, tills: P, tills_n: usize, words: M, words_n: usize,
        keys: *const u32, keys_n: usize, prices: P, prices_n: usize, seen: M, seen_n: usize, waiting: M, waiting_n: usize, rings: M, rings_n: usize,
        rules: M, rules_n: usize, blocks: P, blocks_n: usize, wire: *const u8, wire_n: usize,
        from: u64, now: u64, kind: u64, class: u64, scope: u64, tag: u64, opens: u64) -> Accepted;
    gossip_flush(setup: P, setup_n: usize, net: M, net_n: usize, tills: P, tills_n: usize, seen: M, seen_n: usize, waiting: M, waiting_n: usize,
        blocks: P, blocks_n: usize, log: M, log_n: usize, out: M, out_n: usize, now: u64) -> Flushed;
    gossip_take_down(setup: P, setup_n: usize, tills: M, tills_n: usize, seen: M, seen_n: usize, t: u64) -> Done;
    gossip_bring_up(setup: P, setup_n: usize, tills: M, tills_n: usize, t: u64, shards: u64) -> Done;
    gossip_set_handlers(setup: P, setup_n: usize, tills: M, tills_n: usize, t: u64, gossip: u64, host: u64) -> Done;
    gossip_is_down(setup: P, setup_n: usize, tills: P, tills_n: usize, t: u64) -> Value;
    gossip_marks(setup: P, setup_n: usize, seen: P, seen_n: usize, t: u64, out: M, out_n: usize) -> Counted;
    gossip_block(setup: P, setup_n: usize, net: M, net_n: usize, blocks: M, blocks_n: usize, from: u64, to: u64) -> Done;
    gossip_block_during(setup: P, setup_n: usize, net: M, net_n: usize, blocks: M, blocks_n: usize, from: u64, to: u64, start: u64, end: u64) -> Done;
    gossip_unblock(setup: P, setup_n: usize, net: M, net_n: usize, blocks: M, blocks_n: usize, from: u64, to: u64) -> Done;
    gossip_is_blocked(setup: P, setup_n: usize, net: P, net_n: usize, blocks: P, blocks_n: usize, from: u64, to: u64, now: u64) -> Value;
    gossip_install(setup: P, setup_n: usize, net: M, net_n: usize, rules: M, rules_n: usize, card: *const u8, card_n: usize) -> Value;
    gossip_remove(setup: P, setup_n: usize, net: M, net_n: usize, rules: M, rules_n: usize, id: u64) -> Value;
    gossip_fired(setup: P, setup_n: usize, net: P, net_n: usize, rules: P, rules_n: usize, id: u64) -> Value;
    gossip_decide(setup: P, setup_n: usize, net: M, net_n: usize, rules: M, rules_n: usize, from: u64, to: u64, kind: u64, tier: u64, now: u64) -> Value;
    gossip_in_transit(setup: P, setup_n: usize, net: P, net_n: usize, waiting: P, waiting_n: usize, t: u64) -> Value;
    gossip_next_time(setup: P, setup_n: usize, net: P, net_n: usize, waiting: P, waiting_n: usize) -> Value;
    gossip_waiting(setup: P, setup_n: usize, net: P, net_n: usize, waiting: P, waiting_n: usize, out: M, out_n: usize) -> Counted;
    gossip_drain(setup: P, setup_n: usize, log: M, log_n: usize, out: M, out_n: usize) -> Drained;
    gossip_tally(setup: P, setup_n: usize, log: P, log_n: usize, class: u64) -> Tallied;
    gossip_digest(input: *const u8, input_n: usize) -> Hashed;
}

/// The opening's numbers and texts as the caller has them.
#[derive(Clone, Debug)]
pub struct Opening {
    pub config: NetworkConfig,
    pub plan: RegionPlan,
    pub seed: u64,
    pub key: [u8; 32],
    pub types: Vec<Vec<u8>>,
    pub shards: Vec<Vec<u8>>,
    pub masks: Vec<u64>,
    pub seen: u64,
    pub waiting: u64,
    pub log: u64,
}

pub const GLOBAL: u64 = 16;
pub const COPY: usize = 12;
pub const ROW: usize = COPY + 2;
pub const RECORD: usize = 8;

/// Where numbers of `setup` and of `net` stand, for readings and hooks of a test.
pub const PLANNED: usize = 13;
pub const REGIONS: usize = 14;
pub const SEQUENCE: usize = 0;
pub const WAITING: usize = 1;
pub const RULES: usize = 2;
pub const INSTALLED: usize = 3;
pub const FAULT_WORDS: usize = 4;
pub const BLOCKS: usize = 5;

/// A network: the lent tables, owned, and the calls on them. Every call is safe: the functions take any contents and any lengths.
pub struct Network {
    pub sizes: NetworkSizes,
    pub setup: Table<u64>,
    pub net: Table<u64>,
    pub names: Table<u8>,
    pub tills: Table<u64>,
    pub words: Table<u64>,
    pub keys: Table<u32>,
    pub prices: Table<u64>,
    pub seen: Table<u64>,
    pub waiting: Table<u64>,
    pub rings: Table<u64>,
    pub rules: Table<u64>,
    pub blocks: Table<u64>,
    pub log: Table<u64>,
    pub out: Table<u64>,
}

/// How long each table is.
pub fn table_sizes(sizes: NetworkSizes, plan: RegionPlan) -> TableSizes {
    unsafe { gossip_table_sizes(sizes, plan) }
}

/// BLAKE3 of the input.
pub fn digest(input: &[u8]) -> Hashed {
    unsafe { gossip_digest(input.as_ptr(), input.len()) }
}

impl Network {
    /// Tables of the sizes that the opening needs, and the opening in them; its number where it is refused.
    pub fn open(o: &Opening) -> Result<Network, u64> {
        let sizes = NetworkSizes {
            tills: o.masks.len() as u64,
            types: o.types.len() as u64,
            classes: 8,
            shards: o.shards.len() as u64,
            seen: o.seen,
            waiting: o.waiting,
            log: o.log,
        };
        let n = unsafe { gossip_table_sizes(sizes, o.plan) };
        if n.number != 0 {
            return Err(n.number);
        }
        let vec = |len: u64| vec![0x5555_5555_5555_5555u64; len as usize];
        let mut names = vec![0u8; n.names as usize];
        for (i, text) in o.types.iter().enumerate() {
            put_text(&mut names, i * 65, text, 64);
        }
        for (i, text) in o.shards.iter().enumerate() {
            put_text(&mut names, 16 * 65 + i * 17, text, 16);
        }
        let mut w = Network {
            sizes,
            setup: vec(n.setup).into(),
            net: vec(n.net).into(),
            names: names.into(),
            tills: vec(n.tills).into(),
            words: vec(n.words).into(),
            keys: vec![7; n.keys as usize].into(),
            prices: vec(n.prices).into(),
            seen: vec(n.seen).into(),
            waiting: vec(n.waiting).into(),
            rings: vec(n.rings).into(),
            rules: vec(n.rules).into(),
            blocks: vec(n.blocks).into(),
            log: vec(n.log).into(),
            out: vec![0; (4096 * ROW).max(4096 * COPY)].into(),
        };
        let d = w.open_in(o, &o.key, &o.masks);
        if d.number == 0 { Ok(w) } else { Err(d.number) }
    }

    /// The opening, in these tables: the names are there already.
    pub fn open_in(&mut self, o: &Opening, key: &[u8], masks: &[u64]) -> Done {
        unsafe {
            gossip_open(
                o.config, self.sizes, o.plan, o.seed, key.as_ptr(), key.len(), masks.as_ptr(), masks.len(),
                self.names.as_ptr(), self.names.len(), self.setup.as_mut_ptr(), self.setup.len(), self.net.as_mut_ptr(), self.net.len(),
                self.tills.as_mut_ptr(), self.tills.len(), self.words.as_mut_ptr(), self.words.len(), self.keys.as_mut_ptr(), self.keys.len(),
                self.prices.as_mut_ptr(), self.prices.len(), self.seen.as_mut_ptr(), self.seen.len(), self.waiting.as_ptr(), self.waiting.len(),
                self.rings.as_mut_ptr(), self.rings.len(), self.rules.as_ptr(), self.rules.len(), self.blocks.as_ptr(), self.blocks.len(),
                self.log.as_mut_ptr(), self.log.len(),
            )
        }
    }

    #[allow(clippy::too_many_arguments)]
    pub fn accept(&mut self, from: u64, now: u64, kind: u64, class: u64, scope: u64, wire: &[u8], opens: u64, tag: u64) -> Accepted {
        unsafe {
            gossip_accept(
                self.setup.as_ptr(), self.setup.len(), self.net.as_mut_ptr(), self.net.len(), self.names.as_ptr(), self.names.len(),
                self.tills.as_ptr(), self.tills.len(), self.words.as_mut_ptr(), self.words.len(), self.keys.as_ptr(), self.keys.len(),
                self.prices.as_ptr(), self.prices.len(), self.seen.as_mut_ptr(), self.seen.len(), self.waiting.as_mut_ptr(), self.waiting.len(),
                self.rings.as_mut_ptr(), self.rings.len(), self.rules.as_mut_ptr(), self.rules.len(), self.blocks.as_ptr(), self.blocks.len(),
                wire.as_ptr(), wire.len(), from, now, kind, class, scope, tag, opens,
            )
        }
    }

    /// The rows stand at the front of `self.out`; `rows` is how many the lent output has room for.
    pub fn flush(&mut self, now: u64, rows: usize) -> Flushed {
        if self.out.len() < rows * ROW {
            self.out = vec![0; rows * ROW].into();
        }
        self.flush_to(now, rows * ROW)
    }

    /// The first `words` of `self.out` are lent.
    pub fn flush_to(&mut self, now: u64, words: usize) -> Flushed {
        unsafe {
            gossip_flush(
                self.setup.as_ptr(), self.setup.len(), self.net.as_mut_ptr(), self.net.len(), self.tills.as_ptr(), self.tills.len(),
                self.seen.as_mut_ptr(), self.seen.len(), self.waiting.as_mut_ptr(), self.waiting.len(), self.blocks.as_ptr(), self.blocks.len(),
                self.log.as_mut_ptr(), self.log.len(), self.out.as_mut_ptr(), words, now,
            )
        }
    }

    pub fn take_down(&mut self, t: u64) -> Done {
        unsafe { gossip_take_down(self.setup.as_ptr(), self.setup.len(), self.tills.as_mut_ptr(), self.tills.len(), self.seen.as_mut_ptr(), self.seen.len(), t) }
    }

    pub fn bring_up(&mut self, t: u64, shards: u64) -> Done {
        unsafe { gossip_bring_up(self.setup.as_ptr(), self.setup.len(), self.tills.as_mut_ptr(), self.tills.len(), t, shards) }
    }

    pub fn set_handlers(&mut self, t: u64, gossip: u64, host: u64) -> Done {
        unsafe { gossip_set_handlers(self.setup.as_ptr(), self.setup.len(), self.tills.as_mut_ptr(), self.tills.len(), t, gossip, host) }
    }

    pub fn is_down(&self, t: u64) -> Value {
        unsafe { gossip_is_down(self.setup.as_ptr(), self.setup.len(), self.tills.as_ptr(), self.tills.len(), t) }
    }

    /// The ids stand at the front of `self.out`.
    pub fn marks(&mut self, t: u64) -> Counted {
        unsafe { gossip_marks(self.setup.as_ptr(), self.setup.len(), self.seen.as_ptr(), self.seen.len(), t, self.out.as_mut_ptr(), self.out.len()) }
    }

    pub fn block(&mut self, from: u64, to: u64) -> Done {
        unsafe { gossip_block(self.setup.as_ptr(), self.setup.len(), self.net.as_mut_ptr(), self.net.len(), self.blocks.as_mut_ptr(), self.blocks.len(), from, to) }
    }

    pub fn block_during(&mut self, from: u64, to: u64, start: u64, end: u64) -> Done {
        unsafe { gossip_block_during(self.setup.as_ptr(), self.setup.len(), self.net.as_mut_ptr(), self.net.len(), self.blocks.as_mut_ptr(), self.blocks.len(), from, to, start, end) }
    }

    pub fn unblock(&mut self, from: u64, to: u64) -> Done {
        unsafe { gossip_unblock(self.setup.as_ptr(), self.setup.len(), self.net.as_mut_ptr(), self.net.len(), self.blocks.as_mut_ptr(), self.blocks.len(), from, to) }
    }

    pub fn is_blocked(&self, from: u64, to: u64, now: u64) -> Value {
        unsafe { gossip_is_blocked(self.setup.as_ptr(), self.setup.len(), self.net.as_ptr(), self.net.len(), self.blocks.as_ptr(), self.blocks.len(), from, to, now) }
    }

    pub fn install(&mut self, card: &[u8]) -> Value {
        unsafe { gossip_install(self.setup.as_ptr(), self.setup.len(), self.net.as_mut_ptr(), self.net.len(), self.rules.as_mut_ptr(), self.rules.len(), card.as_ptr(), card.len()) }
    }

    pub fn remove(&mut self, id: u64) -> Value {
        unsafe { gossip_remove(self.setup.as_ptr(), self.setup.len(), self.net.as_mut_ptr(), self.net.len(), self.rules.as_mut_ptr(), self.rules.len(), id) }
    }

    pub fn fired(&self, id: u64) -> Value {
        unsafe { gossip_fired(self.setup.as_ptr(), self.setup.len(), self.net.as_ptr(), self.net.len(), self.rules.as_ptr(), self.rules.len(), id) }
    }

    pub fn decide(&mut self, from: u64, to: u64, kind: u64, tier: u64, now: u64) -> Value {
        unsafe { gossip_decide(self.setup.as_ptr(), self.setup.len(), self.net.as_mut_ptr(), self.net.len(), self.rules.as_mut_ptr(), self.rules.len(), from, to, kind, tier, now) }
    }

    pub fn in_transit(&self, t: u64) -> Value {
        unsafe { gossip_in_transit(self.setup.as_ptr(), self.setup.len(), self.net.as_ptr(), self.net.len(), self.waiting.as_ptr(), self.waiting.len(), t) }
    }

    pub fn next_time(&self) -> Value {
        unsafe { gossip_next_time(self.setup.as_ptr(), self.setup.len(), self.net.as_ptr(), self.net.len(), self.waiting.as_ptr(), self.waiting.len()) }
    }

    /// The copies stand at the front of `self.out`.
    pub fn waiting(&mut self) -> Counted {
        unsafe { gossip_waiting(self.setup.as_ptr(), self.setup.len(), self.net.as_ptr(), self.net.len(), self.waiting.as_ptr(), self.waiting.len(), self.out.as_mut_ptr(), self.out.len()) }
    }

    /// The records stand at the front of `self.out`.
    pub fn drain(&mut self) -> Drained {
        unsafe { gossip_drain(self.setup.as_ptr(), self.setup.len(), self.log.as_mut_ptr(), self.log.len(), self.out.as_mut_ptr(), self.out.len()) }
    }

    pub fn tally(&self, class: u64) -> Tallied {
        unsafe { gossip_tally(self.setup.as_ptr(), self.setup.len(), self.log.as_ptr(), self.log.len(), class) }
    }

    /// The id of an entry, by the digest alone.
    pub fn id(&self, kind: u64, scope: u64, wire: &[u8]) -> u64 {
        let text = |at: usize| &self.names[at + 1..at + 1 + self.names[at] as usize];
        let mut input = text(kind as usize * 65).to_vec();
        if scope == GLOBAL {
            input.push(0);
        } else {
            input.push(1);
            input.extend_from_slice(text(16 * 65 + scope as usize * 17));
        }
        input.extend_from_slice(wire);
        let d = digest(&input);
        u64::from(d.words[0]) | u64::from(d.words[1]) << 32
    }
}

/// A text with its length before it; one that is too long is cut behind `most` bytes, and its length says that it is too long.
pub fn put_text(names: &mut [u8], at: usize, text: &[u8], most: usize) {
    let kept = &text[..text.len().min(most)];
    if at + 1 + most <= names.len() {
        names[at] = text.len().min(255) as u8;
        names[at + 1..at + 1 + kept.len()].copy_from_slice(kept);
    }
}
