//! The root of the original's crate `network`, which is not among its files.
pub mod compression;
pub mod deferred;
pub mod fault;
pub mod retry;
pub mod stream_backoff;

mod registry;
mod traits;
pub use registry::*;
pub use traits::*;
