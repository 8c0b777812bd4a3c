//! Blocks, drop cards and rules.
use super::spelling::{bytes, number};
use super::*;

/// No type has this name: it is one byte too long.
const NO_TYPE: &str = "this type is no type of any opening, as its name has 65 bytes....";

fn host(word: &str) -> Option<HostId> {
    number(word).map(HostId)
}

fn tier(n: u8) -> Option<Tier> {
    [Tier::Gossip, Tier::Notification, Tier::Request, Tier::Response].get(n as usize).copied()
}

/// The next bytes of a card.
fn next<const N: usize>(card: &mut &[u8]) -> Option<[u8; N]> {
    let (front, rest) = card.split_first_chunk()?;
    *card = rest;
    Some(*front)
}

fn next_time(card: &mut &[u8]) -> Option<Duration> {
    next(card).map(|b| time(u64::from_le_bytes(b)))
}

/// What a card says; `None` where it is not exact. The original has no closed windows (bit 6, document 02): no such card is asked of it.
fn spec(mut card: &[u8], names: &[&'static str]) -> Option<DropSpec> {
    let rest = &mut card;
    let [map] = next(rest)?;
    let stands = |bit: u8| map >> bit & 1 == 1;
    let mut spec = DropSpec::default();
    if stands(6) || stands(7) {
        return None;
    }
    if stands(0) {
        let [kind] = next(rest)?;
        spec.type_id = Some(names.get(kind as usize).copied().unwrap_or(NO_TYPE));
    }
    if stands(1) {
        spec.from = Some(HostId(u32::from_le_bytes(next(rest)?)));
    }
    if stands(2) {
        spec.to = Some(HostId(u32::from_le_bytes(next(rest)?)));
    }
    if stands(3) {
        let [n] = next(rest)?;
        spec.tier = Some(tier(n)?);
    }
    if stands(4) {
        spec.probability = Some(f64::from_le_bytes(next(rest)?));
    }
    if stands(5) {
        spec.window = Some(next_time(rest)?..next_time(rest)?);
    }
    rest.is_empty().then_some(spec)
}

impl Driver {
    /// The calls on pairs of tills.
    pub fn block_call(&mut self, call: &str, w: &[&str], o: &mut String) -> Option<()> {
        let faults = &mut self.net.faults;
        match (call, w) {
            ("block", [a, b]) => faults.block(host(a)?, host(b)?),
            ("blockd", [a, b, start, end]) => {
                faults.block_during(host(a)?, host(b)?, time(number(start)?)..time(number(end)?));
            }
            ("unblock", [a, b]) => faults.unblock(host(a)?, host(b)?),
            ("isblocked", [a, b, now]) => {
                let blocked = faults.is_blocked(host(a)?, host(b)?, time(number(now)?));
                let _ = writeln!(o, "isblocked {}", u8::from(blocked));
                return Some(());
            }
            _ => return None,
        }
        let _ = writeln!(o, "{call} ok");
        Some(())
    }

    /// A rule by its card.
    fn install(&mut self, card: &[u8], o: &mut String) {
        let Some(spec) = spec(card, &self.names) else {
            o.push_str("install refused 13\n");
            return;
        };
        let handle = self.net.faults.install_spec(spec);
        assert_eq!(handle.id() as usize, self.rules.len(), "rules are numbered from 0");
        let _ = writeln!(o, "install id={}", handle.id());
        self.rules.push(handle);
    }

    /// A removed id reads as gone, where the original's handle would still show its count.
    fn remove(&mut self, id: usize, o: &mut String) {
        match self.rules.get(id) {
            Some(handle) if self.net.faults.remove(handle) => _ = writeln!(o, "remove 1 fired={}", handle.fired()),
            _ => o.push_str("remove 0 fired=-\n"),
        }
    }

    /// What the rules say of a message.
    fn decide(&mut self, w: [&str; 5], o: &mut String) -> Option<()> {
        let [from, to, kind, t, now] = w;
        let message = MessageContext {
            sender: host(from)?,
            recipient: host(to)?,
            type_id: self.names.get(number::<usize>(kind)?)?,
            tier: tier(number(t)?)?,
        };
        let drops = self.net.faults.decide(&message, time(number(now)?)) == Decision::Drop;
        let _ = writeln!(o, "decide {} words={}", if drops { "drop" } else { "pass" }, self.net.faults.words());
        Some(())
    }

    /// The calls on rules.
    pub fn rule_call(&mut self, call: &str, w: &[&str], o: &mut String) -> Option<()> {
        match (call, w) {
            ("install", [card]) => self.install(&bytes(card)?, o),
            ("remove", [id]) => self.remove(number(id)?, o),
            ("fired", [id]) => {
                let id = number(id)?;
                let fired = self.net.faults.rules().find(|r| r.0 == id);
                let _ = writeln!(o, "fired {}", fired.map_or("gone".to_string(), |r| r.1.to_string()));
            }
            ("setfired", [id, n]) => {
                self.net.faults.set_fired(number(id)?, number(n)?);
                o.push_str("setfired ok\n");
            }
            ("decide", _) => self.decide(w.try_into().ok()?, o)?,
            _ => return None,
        }
        Some(())
    }
}
