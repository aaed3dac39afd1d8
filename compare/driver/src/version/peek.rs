//! Reaches the private items of version.rs.
use super::*;

pub fn find_file(cmp: &InternalKeyCmp, files: &[FileMetaHandle], key: &[u8]) -> Option<usize> {
    super::find_file(cmp, files, key)
}

pub fn get_overlapping(v: &Version, key: &[u8]) -> [Vec<FileMetaHandle>; NUM_LEVELS] {
    v.get_overlapping(key)
}
