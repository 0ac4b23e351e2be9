// The line protocol's loop in plain Rust, for a judge that accepts everything: one write for each reply.
// rustc --edition 2024 -O line_peer.rs
use std::fs::File;
use std::io::{self, BufRead, BufReader, Write};
use std::os::fd::AsFd;

const NAMES: [&[u8]; 4] = [b"a", b"b", b"c", b"_tick"];

fn main() -> io::Result<()> {
    // Files have no buffer of their own, so that a reply is one write.
    let mut input = BufReader::new(File::from(io::stdin().as_fd().try_clone_to_owned()?));
    let mut output = File::from(io::stdout().as_fd().try_clone_to_owned()?);
    let mut line: Vec<u8> = Vec::with_capacity(4097);
    let mut reply: Vec<u8> = Vec::with_capacity(128);
    let mut judged: u64 = 0;
    loop {
        line.clear();
        input.read_until(b'\n', &mut line)?;
        if line.pop() != Some(b'\n') {
            return Ok(());
        }
        reply.clear();
        match line.strip_prefix(b"E ") {
            Some(name) if NAMES.contains(&name) => {
                judged += 1;
                reply.extend_from_slice(b"OK ");
                write!(reply, "{judged}")?;
                reply.push(b'\n');
            }
            Some(_) => reply.extend_from_slice(b"ERR 11 event\n"),
            None => reply.extend_from_slice(b"ERR 10 command\n"),
        }
        output.write_all(&reply)?;
    }
}
