//! The opening of a script, as a network of the original.
use super::spelling::{digits, float, key, mask, number};
use super::*;

/// `key=value` words.
struct Fields<'a>(HashMap<&'a str, &'a str>);

impl<'a> Fields<'a> {
    fn of(words: &[&'a str]) -> Option<Self> {
        words.iter().map(|w| w.split_once('=')).collect::<Option<_>>().map(Self)
    }

    fn number<T: std::str::FromStr>(&self, key: &str) -> Option<T> {
        number(self.0.get(key)?)
    }

    fn rate(&self, key: &str) -> Option<f64> {
        float(self.0.get(key)?)
    }

    /// The parts between commas; `none` has none.
    fn parts(&self, key: &str) -> Option<Vec<&'a str>> {
        let value = self.0.get(key)?;
        Some(if *value == "none" { Vec::new() } else { value.split(',').collect() })
    }

    /// The bytes of each part; `-` has none.
    fn texts(&self, key: &str) -> Option<Vec<Vec<u8>>> {
        self.parts(key)?.into_iter().map(|part| if part == "-" { Some(Vec::new()) } else { digits(part) }).collect()
    }

    /// The plan of regions, if there is one.
    fn plan(&self) -> Option<Option<RegionPlan>> {
        let value = *self.0.get("regions")?;
        if value == "none" {
            return Some(None);
        }
        let (regions, seed) = value.split_once(':')?;
        Some(Some(RegionPlan { regions: number(regions)?, seed: number(seed)? }))
    }

    /// Latency and rates.
    fn config(&self) -> Option<NetworkConfig> {
        Some(NetworkConfig {
            latency: time(self.number("lat")?),
            jitter_fraction: self.rate("jit")?,
            packet_loss_rate: self.rate("loss")?,
            duplicate_rate: self.rate("dup")?,
            replay_rate: self.rate("rep")?,
            spike_rate: self.rate("spike")?,
            regions: self.plan()?,
        })
    }
}

/// Type names live as long as the program: the original keeps them as `&'static str`.
fn kept(name: Vec<u8>) -> Option<&'static str> {
    Some(String::from_utf8(name).ok()?.leak())
}

fn shard((i, key): (usize, Vec<u8>)) -> Option<ShardId> {
    (key.len() <= 16).then(|| ShardId::of_key(i as u8, &key))
}

/// A network of the original; `None` where the words say none.
pub fn open(words: &[&str]) -> Option<Driver> {
    let f = Fields::of(words)?;
    let names: Vec<&'static str> = f.texts("types")?.into_iter().map(kept).collect::<Option<_>>()?;
    let shards: Vec<ShardId> = f.texts("shards")?.into_iter().enumerate().map(shard).collect::<Option<_>>()?;
    let hosted: Vec<_> = f.parts("masks")?.into_iter().map(|m| Some(hosted(mask(m)?, &shards))).collect::<Option<_>>()?;
    if hosted.len() != f.number::<usize>("tills")? {
        return None;
    }
    let seed = f.number("seed")?;
    let hosts = HostLayout { hosted, validator_to_host: HashMap::new() };
    let mut d = Driver {
        net: SimulatedNetwork::new(f.config()?, hosts, seed),
        streams: LinkStreams::new(seed),
        names,
        shards,
        rules: Vec::new(),
        heard: Arc::default(),
    };
    // `auto` is the key that Debian's rand_core spreads the seed to
    match *f.0.get("fkey")? {
        "auto" => {}
        given => d.net.faults.with_key(key(given)?),
    }
    d.net.enable_delivery_log(f.number("log")?);
    handling::set_names(&d.names);
    Some(d)
}
