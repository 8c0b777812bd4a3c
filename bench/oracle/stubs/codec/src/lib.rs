//! The original's codec, whose crate is not among its files: a message says itself what its bytes are.

#[derive(Debug)]
pub struct Undecoded;

pub trait HborEncode {
    fn bytes(&self) -> Vec<u8>;
}

pub trait HborDecode: Sized {
    fn of_bytes(bytes: &[u8]) -> Option<Self>;
}

pub fn to_vec<T: HborEncode + ?Sized>(message: &T) -> Result<Vec<u8>, Undecoded> {
    Ok(message.bytes())
}

pub fn from_slice<T: HborDecode>(bytes: &[u8]) -> Result<T, Undecoded> {
    match T::of_bytes(bytes) {
        Some(message) => Ok(message),
        None => Err(Undecoded),
    }
}
