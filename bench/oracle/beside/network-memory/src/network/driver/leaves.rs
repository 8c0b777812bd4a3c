//! Draws on streams of their own, digests and times, and what the plan of regions says.
use super::spelling::{bytes, float, in_digits, key, number};
use super::*;
use rand::SeedableRng;

/// A stream by its key and the words that it has given.
fn stream(k: &str, words: &str) -> Option<ChaCha8Rng> {
    let mut rng = ChaCha8Rng::from_seed(key(k)?);
    rng.set_word_pos(number(words)?);
    Some(rng)
}

/// A draw of one kind, spelt.
type Drawing = Box<dyn FnMut(&mut ChaCha8Rng) -> String>;

/// The draw that the kind and its range name, and the word that says how many. An empty range is none.
fn drawing<'a>(kind: &str, w: &[&'a str]) -> Option<(Drawing, &'a str)> {
    Some(match (kind, w) {
        ("word", [n]) => (Box::new(|r: &mut ChaCha8Rng| format!("{:08x}", r.random::<u32>())), n),
        ("long", [n]) => (Box::new(|r: &mut ChaCha8Rng| format!("{:016x}", r.random::<u64>())), n),
        ("fraction", [n]) => (Box::new(|r: &mut ChaCha8Rng| format!("{:016x}", r.random::<f64>().to_bits())), n),
        ("real", [low, high, n]) => {
            let (low, high) = (float(low)?, float(high).filter(|high| float(low) < Some(*high))?);
            (Box::new(move |r: &mut ChaCha8Rng| format!("{:016x}", r.random_range(low..high).to_bits())), n)
        }
        ("whole", [low, high, n]) => {
            let (low, high) = (number::<u64>(low)?, number::<u64>(high).filter(|high| number(low) <= Some(*high))?);
            (Box::new(move |r: &mut ChaCha8Rng| r.random_range(low..=high).to_string()), n)
        }
        ("index", [length, n]) => {
            let length: usize = number(length).filter(|n| *n > 0)?;
            (Box::new(move |r: &mut ChaCha8Rng| r.random_range(0..length).to_string()), n)
        }
        _ => return None,
    })
}

/// Draws on a stream of their own.
fn draw(w: &[&str], o: &mut String) -> Option<()> {
    let [kind, k, words, rest @ ..] = w else { return None };
    let mut rng = stream(k, words)?;
    let (mut one, n) = drawing(kind, rest)?;
    let values: Vec<String> = (0..number::<u64>(n)?).map(|_| one(&mut rng)).collect();
    let _ = writeln!(o, "draw {} words={}", [&[kind.to_string()], &values[..]].concat().join(" "), rng.get_word_pos());
    Some(())
}

/// The leaves that need no network.
pub fn leaf(call: &str, w: &[&str], o: &mut String) -> Option<()> {
    let _ = match (call, w) {
        ("draw", _) => return draw(w, o),
        ("digest", [input]) => writeln!(o, "digest {}", in_digits(blake3::hash(&bytes(input)?).as_bytes())),
        ("nanos", [seconds]) => writeln!(o, "nanos {}", ns(Duration::try_from_secs_f64(float(seconds)?).ok()?)),
        ("secs", [t]) => writeln!(o, "secs {:016x}", time(number(t)?).as_secs_f64().to_bits()),
        ("times", [t, by]) => {
            let (t, by) = (time(number(t)?), float(by)?);
            Duration::try_from_secs_f64(by * t.as_secs_f64()).ok()?;
            writeln!(o, "times {}", ns(t.mul_f64(by)))
        }
        ("wire", [rate, length]) => {
            let link = crate::geography::Link { base: Duration::ZERO, bytes_per_sec: number(rate)? };
            writeln!(o, "wire {}", ns(link.transmission(number(length)?)))
        }
        _ => return None,
    };
    Some(())
}

impl Driver {
    /// Latencies on a stream of its own: key, words, from, to, bytes, how many.
    fn latencies(&self, w: [&str; 6], o: &mut String) -> Option<()> {
        let [k, words, from, to, length, n] = w;
        let (mut rng, from, to, length) = (stream(k, words)?, number(from)?, number(to)?, number(length)?);
        o.push_str("latency");
        for _ in 0..number::<u64>(n)? {
            let _ = write!(o, " {}", ns(self.net.sample_latency(from, to, length, &mut rng)));
        }
        let _ = writeln!(o, " words={}", rng.get_word_pos());
        Some(())
    }

    /// Would a message be delivered? Its draws move the link's own stream.
    fn should(&mut self, w: [&str; 4], o: &mut String) -> Option<()> {
        let [from, to, now, length] = w;
        let (from, to) = (number(from)?, number(to)?);
        let stream = self.streams.link(from, to);
        let latency = self.net.should_deliver(from, to, time(number(now)?), number(length)?, stream);
        let _ = writeln!(o, "should {} words={}", or_dash(latency.map(ns)), stream.get_word_pos());
        Some(())
    }

    /// Links and regions.
    pub fn link_call(&mut self, call: &str, w: &[&str], o: &mut String) -> Option<()> {
        let plan = self.net.geography.as_ref();
        let _ = match (call, w) {
            ("latency", _) => return self.latencies(w.try_into().ok()?, o),
            ("should", _) => return self.should(w.try_into().ok()?, o),
            ("linkkey", [a, b]) => writeln!(o, "linkkey {}", in_digits(&self.streams.link(number(a)?, number(b)?).get_seed())),
            ("region", [t]) => {
                let t = number(t)?;
                writeln!(o, "region {}", or_dash(plan.map(|p| p.region_of(t))))
            }
            ("link", [a, b]) => {
                let (a, b) = (number(a)?, number(b)?);
                let link = plan.map(|p| p.link(a, b));
                let said = link.map(|l| format!("base={} rate={}", ns(l.base), l.bytes_per_sec));
                writeln!(o, "link {}", or_dash(said))
            }
            ("transmission", [a, b, length]) => {
                let (a, b, length) = (number(a)?, number(b)?, number(length)?);
                writeln!(o, "transmission {}", plan.map_or(0, |p| ns(p.link(a, b).transmission(length))))
            }
            _ => return None,
        };
        Some(())
    }
}
