//! The words of a script: `None` for one that is not spelt as it should be.
use std::str::FromStr;

/// Decimal digits.
pub fn number<T: FromStr>(word: &str) -> Option<T> {
    let digits = word.bytes().all(|b| b.is_ascii_digit());
    word.parse().ok().filter(|_| digits)
}

fn hexadecimal(word: &str) -> Option<u64> {
    let digits = word.bytes().all(|b| b.is_ascii_hexdigit());
    u64::from_str_radix(word, 16).ok().filter(|_| digits)
}

pub fn mask(word: &str) -> Option<u32> {
    hexadecimal(word)?.try_into().ok()
}

/// The 16 digits of an f64's bits.
pub fn float(word: &str) -> Option<f64> {
    hexadecimal(word).filter(|_| word.len() == 16).map(f64::from_bits)
}

/// 1 or 0.
pub fn flag(word: &str) -> Option<bool> {
    number::<u64>(word).filter(|n| *n <= 1).map(|n| n == 1)
}

/// Two digits a byte.
pub fn digits(word: &str) -> Option<Vec<u8>> {
    let pairs = word.as_bytes().chunks(2).map(|pair| std::str::from_utf8(pair).ok().filter(|p| p.len() == 2));
    pairs.map(|pair| Some(hexadecimal(pair?)? as u8)).collect()
}

/// `x` and digits, or a length, `*` and the byte that fills it.
pub fn bytes(word: &str) -> Option<Vec<u8>> {
    if let Some(rest) = word.strip_prefix('x') {
        return digits(rest);
    }
    let (length, fill) = word.split_once('*')?;
    match digits(fill)?[..] {
        [byte] => Some(vec![byte; number(length)?]),
        _ => None,
    }
}

pub fn key(word: &str) -> Option<[u8; 32]> {
    digits(word)?.try_into().ok()
}

pub fn in_digits(bytes: &[u8]) -> String {
    bytes.iter().map(|b| format!("{b:02x}")).collect()
}
