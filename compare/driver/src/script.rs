//! The script language of the shell, answered by the Rust: one command line in, one answer line out.
use std::cell::RefCell;
use std::fmt::Write as _;
use std::panic::{catch_unwind, AssertUnwindSafe};

use bytes::Bytes;

use crate::cache::Cache;
use crate::cmp::Cmp;
use crate::key_types::{parse_internal_key, LookupKey, ValueType};
use crate::options::{in_memory, Options};
use crate::table_cache::TableCache;
use crate::types::{share, FileMetaData, FileNum, NUM_LEVELS};
use crate::version::peek as vpeek;
use crate::version::FileMetaHandle;
use crate::version_edit::VersionEdit;
use crate::version_set::peek::{self as speek, Peek};
use crate::version_set::{Compaction, VersionSet};

thread_local! {
    static WHERE: RefCell<String> = RefCell::new(String::new());
}

/// Silences panics and keeps the place and message of the last one.
pub fn install_hook() {
    std::panic::set_hook(Box::new(|info| {
        let msg = if let Some(s) = info.payload().downcast_ref::<&str>() {
            s.to_string()
        } else if let Some(s) = info.payload().downcast_ref::<String>() {
            s.clone()
        } else {
            String::new()
        };
        let at = info.location().map(|l| format!("{}:{}", l.file(), l.line()));
        WHERE.with(|w| {
            *w.borrow_mut() = format!("@{} {}", at.unwrap_or_default(), msg.replace('\n', " "))
        });
    }));
}

const DB: &str = "db";

fn fresh(max_file_size: usize) -> (VersionSet, Options) {
    let opt = Options {
        max_file_size,
        ..in_memory()
    };
    let blocks = share(Cache::new(64));
    let cache = share(TableCache::new(DB, opt.clone(), blocks, 64));
    (VersionSet::new(DB, opt.clone(), cache), opt)
}

pub struct Store {
    vs: VersionSet,
    opt: Options,
    picked: Option<Compaction>,
    verbose: bool,
}

type Bad = String;
type Ans = Result<String, Bad>;

fn num<T: std::str::FromStr>(s: Option<&str>) -> Result<T, Bad> {
    let s = s.ok_or("missing number")?;
    s.parse::<T>().map_err(|_| format!("number {}", s))
}

fn unhex(s: &str) -> Result<Vec<u8>, Bad> {
    if s == "-" {
        return Ok(vec![]);
    }
    let b = s.as_bytes();
    if b.len() % 2 != 0 {
        return Err(format!("hex {}", s));
    }
    let dig = |c: u8| (c as char).to_digit(16).ok_or_else(|| format!("hex {}", s));
    b.chunks(2)
        .map(|p| Ok((dig(p[0])? * 16 + dig(p[1])?) as u8))
        .collect()
}

fn hex(b: &[u8]) -> String {
    if b.is_empty() {
        return "-".to_string();
    }
    let mut s = String::with_capacity(b.len() * 2);
    for x in b {
        let _ = write!(s, "{:02x}", x);
    }
    s
}

/// An internal key: hex, `-` for no bytes, or text@sequence (type 1) or text@sequenced (type 0).
fn ikey(s: Option<&str>) -> Result<Vec<u8>, Bad> {
    let s = s.ok_or("missing key")?;
    if let Some(at) = s.rfind('@') {
        let (u, q) = (&s[..at], &s[at + 1..]);
        let (q, t) = match q.strip_suffix('d') {
            Some(q) => (q, ValueType::TypeDeletion),
            None => (q, ValueType::TypeValue),
        };
        let q: u64 = num(Some(q))?;
        return Ok(LookupKey::new_full(u.as_bytes(), q, t).internal_key().to_vec());
    }
    unhex(s)
}

/// A user key: hex, `-` for no bytes, or =text.
fn ukey(s: Option<&str>) -> Result<Vec<u8>, Bad> {
    let s = s.ok_or("missing key")?;
    match s.strip_prefix('=') {
        Some(t) => Ok(t.as_bytes().to_vec()),
        None => unhex(s),
    }
}

fn list<T: std::fmt::Display>(v: &[T]) -> String {
    if v.is_empty() {
        return "-".to_string();
    }
    let mut s = String::new();
    for (i, x) in v.iter().enumerate() {
        let _ = write!(s, "{}{}", if i > 0 { "," } else { "" }, x);
    }
    s
}

fn nums(v: &[FileMetaHandle]) -> String {
    list(&v.iter().map(|f| f.borrow().num).collect::<Vec<FileNum>>())
}

fn bit(b: bool) -> &'static str {
    if b {
        "1"
    } else {
        "0"
    }
}

fn show_file(f: &FileMetaData) -> String {
    format!(
        "{},{},{},{},{}",
        f.num,
        f.size,
        hex(&f.smallest),
        hex(&f.largest),
        f.allowed_seeks
    )
}

fn parse_edit<'a>(items: impl Iterator<Item = &'a str>) -> Result<VersionEdit, Bad> {
    let mut e = VersionEdit::new();
    for it in items {
        let mut p = it.split(',');
        match p.next() {
            Some("p") => {
                let l = num(p.next())?;
                e.set_compact_pointer(l, &ikey(p.next())?);
            }
            Some("d") => {
                let l = num(p.next())?;
                e.delete_file(l, num(p.next())?);
            }
            Some("a") => {
                let l = num(p.next())?;
                let f = FileMetaData {
                    allowed_seeks: 0,
                    num: num(p.next())?,
                    size: num(p.next())?,
                    smallest: ikey(p.next())?.into(),
                    largest: ikey(p.next())?.into(),
                };
                e.add_file(l, f);
            }
            Some("l") => e.set_log_num(num(p.next())?),
            _ => return Err(format!("edit item {}", it)),
        }
        if p.next().is_some() {
            return Err(format!("edit item {}", it));
        }
    }
    Ok(e)
}

impl Store {
    pub fn new(verbose: bool) -> Store {
        let (vs, opt) = fresh(2 << 20);
        Store {
            vs,
            opt,
            picked: None,
            verbose,
        }
    }

    /// One command; None for a blank line or a comment.
    pub fn line(&mut self, line: &str) -> Option<String> {
        let line = line.trim();
        if line.is_empty() || line.starts_with('#') {
            return None;
        }
        let r = catch_unwind(AssertUnwindSafe(|| self.run(line)));
        Some(match r {
            Ok(Ok(s)) => s,
            Ok(Err(b)) => format!("bad {}", b),
            Err(_) if self.verbose => WHERE.with(|w| format!("panic {}", w.borrow())),
            Err(_) => "panic".to_string(),
        })
    }

    fn edits(&mut self, edits: Vec<VersionEdit>) -> Ans {
        // The two assertions of log_and_apply, repeated here.
        let mut log = self.vs.log_num;
        for e in &edits {
            if let Some(l) = e.log_number {
                assert!(l >= log);
                assert!(l < self.vs.next_file_num);
                log = l;
            }
        }
        self.keeping_ptrs(|vs| speek::apply_edits(vs, &edits));
        self.vs.log_num = log;
        Ok("ok".to_string())
    }

    /// Runs f; if it panics, puts the old compaction pointers back: the Rust leaves them changed (docs/DIFFERENCES.md).
    fn keeping_ptrs<T>(&mut self, f: impl FnOnce(&mut VersionSet) -> T) -> T {
        let old: [Bytes; NUM_LEVELS] = speek::ptrs(&mut self.vs).clone();
        let vs = &mut self.vs;
        match catch_unwind(AssertUnwindSafe(|| f(vs))) {
            Ok(t) => t,
            Err(e) => {
                *speek::ptrs(&mut self.vs) = old;
                std::panic::resume_unwind(e)
            }
        }
    }

    fn show_picked(&mut self, c: Option<Compaction>, cause: &str) -> String {
        // A `none` (or a panic) leaves the pick before it in place for `stop` and `base`.
        let c = match c {
            None => return "none".to_string(),
            Some(c) => {
                self.picked = Some(c);
                self.picked.as_mut().unwrap()
            }
        };
        c.add_input_deletions();
        let (level, trivial) = (c.level(), c.is_trivial_move());
        let p = Peek(c);
        let s = format!(
            "level={} cause={} in0={} in1={} gp={} manual={} trivial={}",
            level,
            cause,
            list(&p.nums(0)),
            list(&p.nums(1)),
            p.grandparents().map(|g| list(&g)).unwrap_or_else(|| "-".to_string()),
            bit(p.manual()),
            bit(trivial)
        );
        let named: Vec<(usize, FileNum)> = [0, 1]
            .iter()
            .flat_map(|&i| p.nums(i).into_iter().map(move |n| (level + i, n)))
            .collect();
        let deleted: Vec<(usize, FileNum)> = c.edit().deleted.iter().cloned().collect();
        // The Rust keeps deletions as a set: they are shown in the order of the inputs where they are these.
        let mut sorted = (named.clone(), deleted.clone());
        sorted.0.sort();
        sorted.1.sort();
        let shown = if sorted.0 == sorted.1 { named } else { sorted.1 };
        format!(
            "{} ptr={} edel={}",
            s,
            hex(&speek::ptrs(&mut self.vs)[level]),
            list(&shown.iter().map(|(l, n)| format!("{}:{}", l, n)).collect::<Vec<_>>())
        )
    }

    fn counters(&self) -> String {
        format!(
            "next={} manifest={} seq={} log={} prev={}",
            self.vs.next_file_num,
            self.vs.manifest_num,
            self.vs.last_seq,
            self.vs.log_num,
            self.vs.prev_log_num
        )
    }

    fn show_ptrs(&mut self) -> String {
        let p: Vec<String> = speek::ptrs(&mut self.vs).iter().map(|k| hex(k)).collect();
        p.join(" ")
    }

    fn show_files(&self, l: usize) -> String {
        let v = self.vs.current();
        let v = v.borrow();
        let fs: Vec<String> = v.files[l].iter().map(|f| show_file(&f.borrow())).collect();
        if fs.is_empty() {
            return "-".to_string();
        }
        fs.join(" ")
    }

    fn show_score(&self) -> String {
        let v = self.vs.current();
        let v = v.borrow();
        let level = v.compaction_level.map(|l| l.to_string());
        let bits = v.compaction_score.map(|s| format!("{:016x}", s.to_bits()));
        format!(
            "level={} bits={} needs={}",
            level.unwrap_or_else(|| "none".to_string()),
            bits.unwrap_or_else(|| "none".to_string()),
            bit(self.vs.needs_compaction())
        )
    }

    fn picked(&mut self) -> Result<&mut Compaction, Bad> {
        self.picked.as_mut().ok_or_else(|| "no pick".to_string())
    }

    fn run(&mut self, line: &str) -> Ans {
        let mut t = line.split_ascii_whitespace();
        let cmd = t.next().unwrap();
        match cmd {
            "new" => {
                let m = self.opt.max_file_size;
                let (vs, opt) = fresh(m);
                self.vs = vs;
                self.opt = opt;
                self.picked = None;
                Ok("ok".to_string())
            }
            "echo" => Ok(line[4..].trim().to_string()),
            "maxsize" => {
                let m = num(t.next())?;
                self.opt.max_file_size = m;
                speek::opt(&mut self.vs).max_file_size = m;
                Ok("ok".to_string())
            }
            "cmp" => {
                let (a, b) = (ikey(t.next())?, ikey(t.next())?);
                Ok(match speek::cmp(&self.vs).cmp(&a, &b) {
                    std::cmp::Ordering::Less => "<",
                    std::cmp::Ordering::Equal => "=",
                    std::cmp::Ordering::Greater => ">",
                }
                .to_string())
            }
            "parse" => {
                let k = ikey(t.next())?;
                let (ty, seq, u) = parse_internal_key(&k);
                Ok(format!("type={} seq={} user={}", ty as u8, seq, hex(u)))
            }
            "edit" => {
                let e = parse_edit(t)?;
                self.edits(vec![e])
            }
            "files" => {
                let l = num(t.next())?;
                Ok(self.show_files(l))
            }
            "ptrs" => Ok(self.show_ptrs()),
            "score" => Ok(self.show_score()),
            "counters" => Ok(self.counters()),
            "pick" => {
                let size = {
                    let v = self.vs.current();
                    let v = v.borrow();
                    v.compaction_score.unwrap_or(0.0) >= 1.0
                };
                let c = self.vs.pick_compaction();
                Ok(self.show_picked(c, if size { "size" } else { "seek" }))
            }
            "range" => {
                let l = num(t.next())?;
                let (a, b) = (ikey(t.next())?, ikey(t.next())?);
                let c = self.vs.compact_range(l, &a, &b);
                Ok(self.show_picked(c, "manual"))
            }
            "stop" => {
                let ks: Vec<Vec<u8>> = t.map(|k| ikey(Some(k))).collect::<Result<_, _>>()?;
                let c = self.picked()?;
                let mut out = vec![];
                for k in ks {
                    let y = c.should_stop_before(&k);
                    let (ix, bytes, seen) = Peek(c).cutter();
                    out.push(format!("{}:{}:{}:{}", if y { "y" } else { "n" }, ix, bytes, bit(seen)));
                }
                Ok(if out.is_empty() { "-".to_string() } else { out.join(" ") })
            }
            "base" => {
                let ks: Vec<Vec<u8>> = t.map(|k| ukey(Some(k))).collect::<Result<_, _>>()?;
                let c = self.picked()?;
                let mut out = vec![];
                for k in ks {
                    let y = c.is_base_level_for(&k);
                    out.push(if y { "y" } else { "n" });
                }
                Ok(if out.is_empty() { "-".to_string() } else { out.join(" ") })
            }
            "overlap" => {
                let l = num(t.next())?;
                let (a, b) = (ikey(t.next())?, ikey(t.next())?);
                let v = self.vs.current();
                let r = v.borrow().overlapping_inputs(l, &a, &b);
                Ok(nums(&r))
            }
            "inlevel" => {
                let l = num(t.next())?;
                let (a, b) = (ukey(t.next())?, ukey(t.next())?);
                let v = self.vs.current();
                let r = v.borrow().overlap_in_level(l, &a, &b);
                Ok(bit(r).to_string())
            }
            "lookup" => {
                let k = ikey(t.next())?;
                let v = self.vs.current();
                let r = vpeek::get_overlapping(&v.borrow(), &k);
                Ok(r.iter().map(|l| nums(l)).collect::<Vec<_>>().join(" "))
            }
            "find" => {
                let l: usize = num(t.next())?;
                let k = ikey(t.next())?;
                let v = self.vs.current();
                let r = vpeek::find_file(&speek::cmp(&self.vs), &v.borrow().files[l], &k);
                Ok(r.map(|i| i.to_string()).unwrap_or_else(|| "none".to_string()))
            }
            "mem" => {
                let (a, b) = (ukey(t.next())?, ukey(t.next())?);
                let v = self.vs.current();
                let r = v.borrow().pick_memtable_output_level(&a, &b);
                Ok(r.to_string())
            }
            "live" => {
                let mut l: Vec<FileNum> = self.vs.live_files().into_iter().collect();
                l.sort();
                Ok(list(&l))
            }
            "newnum" => Ok(self.vs.new_file_number().to_string()),
            "reuse" => {
                self.vs.reuse_file_number(num(t.next())?);
                Ok(format!("next={}", self.vs.next_file_num))
            }
            "mark" => {
                self.vs.mark_file_number_used(num(t.next())?);
                Ok(format!("next={}", self.vs.next_file_num))
            }
            "set" => {
                let what = t.next().unwrap_or("");
                let n: u64 = num(t.next())?;
                match what {
                    "next" => self.vs.next_file_num = n,
                    "manifest" => self.vs.manifest_num = n,
                    "seq" => self.vs.last_seq = n,
                    "log" => self.vs.log_num = n,
                    "prev" => self.vs.prev_log_num = n,
                    _ => return Err(format!("set {}", what)),
                }
                Ok("ok".to_string())
            }
            "getrange" => {
                let (a, b) = speek::get_range(&self.vs, num(t.next())?);
                Ok(format!("{} {}", hex(&a), hex(&b)))
            }
            "bytes" => {
                let l = num(t.next())?;
                let v = self.vs.current();
                let v = v.borrow();
                Ok(format!("{} {}", v.num_level_files(l), v.num_level_bytes(l)))
            }
            _ => Err(format!("command {}", cmd)),
        }
    }
}
