//! stream < lines > answers: each line `draw long KEY WORDS COUNT` draws on a stream record of its own, which is lent by `&mut` to the archive's function.
use std::io::BufRead;

#[repr(C)]
struct Stream {
    key: [u32; 8],
    count: u64,
}

unsafe extern "C" {
    safe fn gossip_next_u64(s: &mut Stream) -> u64;
}

/// The 32 bytes of a key, as 64 hexadecimal digits, are 8 little-endian words.
fn key(hex: &str) -> [u32; 8] {
    std::array::from_fn(|i| u32::from_str_radix(&hex[8 * i..8 * i + 8], 16).expect("a key").swap_bytes())
}

/// Each line with its draws.
fn main() {
    for line in std::io::stdin().lock().lines() {
        let line = line.expect("standard input");
        let words: Vec<&str> = line.split_whitespace().collect();
        let ["draw", "long", hex, count, draws] = words[..] else { panic!("not a draw: {line}") };
        let mut stream = Stream { key: key(hex), count: count.parse().expect("a word count") };
        let values = (0..draws.parse().expect("a number of draws")).map(|_: u64| format!(" {:016x}", gossip_next_u64(&mut stream)));
        println!("draw long{} words={}", values.collect::<String>(), stream.count);
    }
}
