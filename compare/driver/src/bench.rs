//! Times the Rust: the operations of the program `bench`, so many times on a store of so many files.
use crate::cache::Cache;
use crate::options::{in_memory, Options};
use crate::table_cache::TableCache;
use crate::types::{share, FileMetaData};
use crate::version_edit::VersionEdit;
use crate::version_set::{peek, VersionSet};
use bytes::Bytes;

fn cam_key(n: u64) -> Bytes {
    let mut k = format!("m1/axis03/{:04}", n).into_bytes();
    k.extend_from_slice(&[1, 1, 0, 0, 0, 0, 0, 0]);
    Bytes::from(k)
}

const SMALL: usize = 1000;
const LARGE: usize = 20971520;
const KEYS: u64 = 10000;

/// Where a level's files begin and end among so many: a tenth at level 1, four tenths at level 2, the rest at level 3.
fn bounds(level: usize, files: u64) -> (u64, u64) {
    match level {
        1 => (0, files / 10),
        2 => (files / 10, files / 2),
        _ => (files / 2, files),
    }
}

fn level_of(i: u64, files: u64) -> usize {
    (1..4).find(|&l| i < bounds(l, files).1).unwrap()
}

/// File i of so many: each level's files share all the keys among them, one after another.
fn file(number: u64, i: u64, files: u64, size: usize) -> FileMetaData {
    let (from, to) = bounds(level_of(i, files), files);
    FileMetaData {
        num: number,
        size,
        smallest: cam_key((i - from) * KEYS / (to - from)),
        largest: cam_key((i + 1 - from) * KEYS / (to - from) - 1),
        allowed_seeks: 0,
    }
}

fn filled(files: u64, size: usize) -> VersionSet {
    let opt = Options { ..in_memory() };
    let blocks = share(Cache::new(64));
    let cache = share(TableCache::new("db", opt.clone(), blocks, 64));
    let mut vs = VersionSet::new("db", opt, cache);
    let mut e = VersionEdit::new();
    for i in 0..files {
        e.add_file(level_of(i, files), file(10 + i, i, files, size));
    }
    peek::apply_edits(&mut vs, &[e]);
    vs
}

/// How many edits were made.
#[no_mangle]
pub extern "C" fn rust_edits(files: u64, repeats: u64) -> u64 {
    let mut vs = filled(files, SMALL);
    let start = files / 10;
    let width = (files / 2 - files / 10).max(1);
    let mut done = 0;
    for k in 0..repeats {
        let i = start + k % width;
        let old = if k < width { 10 + i } else { 1000 + k - width };
        let mut e = VersionEdit::new();
        e.delete_file(2, old);
        e.add_file(2, file(1000 + k, i, files, SMALL));
        peek::apply_edits(&mut vs, &[e]);
        done += 1;
    }
    done
}

/// Size picks.
#[no_mangle]
pub extern "C" fn rust_picks(files: u64, repeats: u64) -> u64 {
    let mut vs = filled(files, LARGE);
    (0..repeats).filter(|_| vs.pick_compaction().is_some()).count() as u64
}

/// Manual picks at level 2 of the whole range.
#[no_mangle]
pub extern "C" fn rust_manual(files: u64, repeats: u64) -> u64 {
    let mut vs = filled(files, LARGE);
    (0..repeats).filter(|_| vs.compact_range(2, &cam_key(0), &cam_key(9999)).is_some()).count() as u64
}

/// The files of level 2 that overlap one key's range.
#[no_mangle]
pub extern "C" fn rust_overlap(files: u64, repeats: u64) -> u64 {
    let vs = filled(files, SMALL);
    let v = vs.current();
    let v = v.borrow();
    let mut found = 0;
    for k in 0..repeats {
        found += v.overlapping_inputs(2, &cam_key(k * 37 % KEYS), &cam_key(k * 37 % KEYS)).len() as u64;
    }
    std::hint::black_box(found);
    repeats
}

/// The file of level 2 that may hold a key: find_file, then its smallest key, as get_overlapping does.
#[no_mangle]
pub extern "C" fn rust_lookup(files: u64, repeats: u64) -> u64 {
    let vs = filled(files, SMALL);
    let cmp = peek::cmp(&vs);
    let v = vs.current();
    let v = v.borrow();
    let mut found = 0;
    for k in 0..repeats {
        let key = cam_key(k * 37 % KEYS);
        if let Some(i) = crate::version::peek::find_file(&cmp, &v.files[2], &key) {
            let f = v.files[2][i].borrow();
            found += (f.smallest[..f.smallest.len() - 8] <= key[..key.len() - 8]) as u64;
        }
    }
    std::hint::black_box(found);
    repeats
}

/// The number of the k-th key of so many asked in rising order.
fn rising(k: u64, repeats: u64) -> u64 {
    k / (repeats / KEYS + 1) % KEYS
}

/// Base-level questions of a pick of level 1 that takes all files.
#[no_mangle]
pub extern "C" fn rust_base(files: u64, repeats: u64) -> u64 {
    let mut vs = filled(files, SMALL);
    let mut c = vs.compact_range(1, &cam_key(0), &cam_key(9999)).unwrap();
    for k in 0..repeats {
        let key = cam_key(rising(k, repeats));
        std::hint::black_box(c.is_base_level_for(&key[..key.len() - 8]));
    }
    repeats
}

/// Keys put to the cutter of a pick of level 1 that takes all files.
#[no_mangle]
pub extern "C" fn rust_cut(files: u64, repeats: u64) -> u64 {
    let mut vs = filled(files, SMALL);
    let mut c = vs.compact_range(1, &cam_key(0), &cam_key(9999)).unwrap();
    for k in 0..repeats {
        std::hint::black_box(c.should_stop_before(&cam_key(rising(k, repeats))));
    }
    repeats
}

/// The edit that a new manifest begins with: each file of the current version, as the Rust's own snapshot has it.
fn snapshot(vs: &VersionSet) -> VersionEdit {
    let mut e = VersionEdit::new();
    let v = vs.current();
    for (level, files) in v.borrow().files.iter().enumerate() {
        for f in files {
            e.add_file(level, f.borrow().clone());
        }
    }
    e
}

/// Snapshots written: the edit of all files built and encoded. There is no other form of a state in the Rust.
#[no_mangle]
pub extern "C" fn rust_write(files: u64, repeats: u64) -> u64 {
    let vs = filled(files, SMALL);
    for _ in 0..repeats {
        std::hint::black_box(snapshot(&vs).encode());
    }
    repeats
}

/// Snapshots read: such an edit decoded and applied to a fresh set of versions.
#[no_mangle]
pub extern "C" fn rust_read(files: u64, repeats: u64) -> u64 {
    let vs = filled(files, SMALL);
    let bytes = snapshot(&vs).encode();
    let mut done = 0;
    for _ in 0..repeats {
        let e = VersionEdit::decode_from(&bytes).unwrap();
        let mut fresh = filled(0, SMALL);
        peek::apply_edits(&mut fresh, &[e]);
        done += std::hint::black_box(fresh).current().borrow().files.len().min(1) as u64;
    }
    done
}
