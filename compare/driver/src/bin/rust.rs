//! rust [-v] [-i]: reads commands on stdin, writes one answer line for each.
//! -v: a panic's place and message follow the word `panic`; -i: flush after each line.
use std::io::{self, BufRead, BufWriter, Write};

fn main() {
    let args: Vec<String> = std::env::args().skip(1).collect();
    let (v, i) = (args.iter().any(|a| a == "-v"), args.iter().any(|a| a == "-i"));
    rusty_leveldb::script::install_hook();
    let mut store = rusty_leveldb::script::Store::new(v);
    let stdin = io::stdin();
    let mut input = stdin.lock();
    let stdout = io::stdout();
    let mut out = BufWriter::with_capacity(1 << 16, stdout.lock());
    let mut line = String::new();
    loop {
        line.clear();
        if input.read_line(&mut line).expect("stdin") == 0 {
            break;
        }
        if let Some(ans) = store.line(&line) {
            if writeln!(out, "{}", ans).is_err() {
                return;
            }
            if i {
                let _ = out.flush();
            }
        }
    }
}
