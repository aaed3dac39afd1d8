//! Reaches the private items of version_set.rs.
use super::*;

pub fn cmp(vs: &VersionSet) -> InternalKeyCmp {
    vs.cmp.clone()
}

pub fn opt(vs: &mut VersionSet) -> &mut Options {
    &mut vs.opt
}

pub fn ptrs(vs: &mut VersionSet) -> &mut [Bytes; NUM_LEVELS] {
    &mut vs.compaction_ptrs
}

/// The middle of log_and_apply: one Builder, all edits applied, one save_to, finalize, add_version.
pub fn apply_edits(vs: &mut VersionSet, edits: &[VersionEdit]) {
    let mut v = Version::new(vs.cache.clone(), vs.opt.cmp.clone());
    {
        let mut builder = Builder::new();
        for edit in edits {
            builder.apply(edit, &mut vs.compaction_ptrs);
        }
        builder.save_to(&vs.cmp, vs.current.as_ref().unwrap(), &mut v);
    }
    vs.finalize(&mut v);
    vs.add_version(v);
}

pub fn get_range(vs: &VersionSet, level: usize) -> (Bytes, Bytes) {
    let v = vs.current();
    let v = v.borrow();
    super::get_range(&vs.cmp, v.files[level].iter())
}

pub struct Peek<'a>(pub &'a mut Compaction);

impl Peek<'_> {
    pub fn nums(&self, parent: usize) -> Vec<FileNum> {
        self.0.inputs[parent].iter().map(|f| f.borrow().num).collect()
    }
    pub fn grandparents(&self) -> Option<Vec<FileNum>> {
        let g = self.0.grandparents.as_ref()?;
        Some(g.iter().map(|f| f.borrow().num).collect())
    }
    pub fn manual(&self) -> bool {
        self.0.manual
    }
    pub fn cutter(&self) -> (usize, usize, bool) {
        (self.0.grandparent_ix, self.0.overlapped_bytes, self.0.seen_key)
    }
}
