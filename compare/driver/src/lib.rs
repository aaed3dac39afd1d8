// Own lib.rs (the crate's original one declares modules whose texts aren't at hand: asyncdb*, db_impl,
// db_iter, memtable, skipmap, snapshot, test_util, write_batch; disk_env is behind the feature `fs`, off).
// Every other file of src/ is copied unchanged from docs/src (see build.sh).
// version.rs, version_set.rs and version_edit.rs are taken in by include!, so that a child module `peek`
// of our own can reach their private items without a changed byte.
#![allow(dead_code)]

#[macro_use]
pub mod infolog;

mod block;
mod block_builder;
mod blockhandle;
mod cache;
mod cmp;
mod crc;
mod env_common;
mod error;
mod filter;
mod filter_block;
mod key_types;
mod log;
mod mem_env;
mod merging_iter;
mod options;
mod table_block;
mod table_builder;
mod table_cache;
mod table_reader;
mod types;

mod version {
    include!("version.rs");
    pub mod peek;
}
mod version_edit {
    include!("version_edit.rs");
}
mod version_set {
    include!("version_set.rs");
    pub mod peek;
}

pub mod compressor;
pub mod env;

pub use crate::cmp::{Cmp, DefaultCmp};
pub use compressor::{Compressor, CompressorId};
pub use error::{Result, Status, StatusCode};
pub use filter::{BloomPolicy, FilterPolicy};
pub use mem_env::MemEnv;
pub use options::{in_memory, CompressorList, Options};
pub use types::LdbIterator;

pub mod bench;
pub mod script;
