// Times the digest and the stream block of the archive, and b3sum's rate beside them where b3sum is installed.
use std::hint::black_box;
use std::process::{Command, Stdio};
use std::time::Instant;

#[repr(C)]
struct Hashed {
    number: u32,
    words: [u32; 8],
}

#[repr(C)]
struct Block {
    words: [u32; 16],
}

unsafe extern "C" {
    fn leaf_digest(head: *const u8, head_len: usize, tail: *const u8, tail_len: usize) -> Hashed;
    fn leaf_block(k: u32, n: u64) -> Block;
}

fn digest(head: &[u8], tail: &[u8]) -> Hashed {
    // Safe: both slices are readable for their whole length, and the function takes any contents.
    unsafe { leaf_digest(head.as_ptr(), head.len(), tail.as_ptr(), tail.len()) }
}

/// The least time of a call over several rounds, in nanoseconds.
fn least(calls: usize, mut call: impl FnMut() -> u64) -> f64 {
    let mut best = f64::MAX;
    for _ in 0..15 {
        let start = Instant::now();
        for _ in 0..calls {
            black_box(call());
        }
        best = best.min(start.elapsed().as_nanos() as f64 / calls as f64);
    }
    best
}

/// b3sum on one thread, over a file of 256 MiB: nanoseconds a byte, the start of the program taken off.
fn b3sum() -> Option<f64> {
    let big = std::env::temp_dir().join("leaves-bench.bytes");
    let run = |len: usize| -> Option<f64> {
        std::fs::write(&big, vec![7u8; len]).ok()?;
        let mut best = f64::MAX;
        for _ in 0..5 {
            let start = Instant::now();
            let ok = Command::new("b3sum").args(["--num-threads", "1"]).arg(&big).stdout(Stdio::null()).status().ok()?;
            if !ok.success() {
                return None;
            }
            best = best.min(start.elapsed().as_nanos() as f64);
        }
        Some(best)
    };
    let large = 256 << 20;
    let rate = (run(large)? - run(0)?) / large as f64;
    let _ = std::fs::remove_file(&big);
    Some(rate)
}

fn main() {
    let head = [3u8; 30];
    for len in [20usize, 256, 1024, 4096, 65536] {
        let bytes: Vec<u8> = (0..len).map(|i| (i % 251) as u8).collect();
        let calls = (20_000_000 / (len + 200)).max(50);
        let alone = least(calls, || {
            let d = digest(&[], &bytes);
            u64::from(d.number) + u64::from(d.words[0])
        });
        let behind = least(calls, || u64::from(digest(&head, &bytes).words[0]));
        println!("digest {len:6} bytes {alone:9.1} ns {:7.0} MB/s   behind 30 bytes {behind:9.1} ns", len as f64 / alone * 1000.0);
    }
    if let Some(rate) = b3sum() {
        println!("b3sum --num-threads 1 {:7.0} MB/s", 1000.0 / rate);
    }
    let mut n = 0u64;
    let block = least(1_000_000, || {
        n += 1;
        u64::from(unsafe { leaf_block(7, n) }.words[5])
    });
    println!("stream block {block:5.1} ns");
}
