// Clients of a server of the line protocol, and how long it takes to answer them.
// rustc --edition 2024 -O serve_load.rs; serve_load ADDRESS CONNECTIONS LINES ahead|polling|turns|latency
// Each connection has a thread. With `ahead` all its lines are sent while the replies are read, with `turns` each line once the reply to the one
// before was read. With `polling` all lines of a connection are sent, as many as fit the buffers of both sides, and then the replies are read by a
// client that doesn't sleep for them, so that no reply has to wake it. It prints the nanoseconds from the first line to the last reply. With `latency` lines are sent as with `turns`, and
// it prints in place of that the median, the 99th percentile and the greatest of the nanoseconds that a reply took.
use std::hint;
use std::io::{self, BufRead, BufReader, Read, Write};
use std::net::TcpStream;
use std::sync::Barrier;
use std::thread;
use std::time::Instant;

const LINE: &[u8] = b"E a\n";

/// The next replies; a client that doesn't sleep for them asks again and again.
fn some_of(mut link: &TcpStream, bytes: &mut [u8]) -> io::Result<usize> {
    loop {
        match link.read(bytes) {
            Err(fault) if fault.kind() == io::ErrorKind::WouldBlock => hint::spin_loop(),
            Ok(0) => return Err(io::ErrorKind::UnexpectedEof.into()),
            done => return done,
        }
    }
}

fn read_all(link: &TcpStream, lines: usize) -> io::Result<()> {
    let mut bytes = vec![0; 1 << 16];
    let mut answered = 0;
    while answered < lines {
        let got = some_of(link, &mut bytes)?;
        answered += bytes[..got].iter().filter(|byte| **byte == b'\n').count();
    }
    Ok(())
}

fn send_all(mut link: &TcpStream, lines: usize) -> io::Result<()> {
    let block = LINE.repeat(1000);
    let mut left = lines * LINE.len();
    while left > 0 {
        let now = left.min(block.len());
        link.write_all(&block[..now])?;
        left -= now;
    }
    Ok(())
}

fn ahead(link: &TcpStream, lines: usize) -> io::Result<()> {
    thread::scope(|scope| {
        let sender = scope.spawn(move || send_all(link, lines));
        read_all(link, lines)?;
        sender.join().unwrap()
    })
}

fn polling(link: &TcpStream, lines: usize) -> io::Result<()> {
    send_all(link, lines)?;
    link.set_nonblocking(true)?;
    read_all(link, lines)?;
    link.set_nonblocking(false)
}

/// How many nanoseconds each reply took.
fn turns(mut link: &TcpStream, lines: usize) -> io::Result<Vec<u128>> {
    let mut source = BufReader::new(link.try_clone()?);
    let mut reply = Vec::new();
    let mut took = Vec::with_capacity(lines);
    for _ in 0..lines {
        let start = Instant::now();
        link.write_all(LINE)?;
        reply.clear();
        if source.read_until(b'\n', &mut reply)? == 0 {
            return Err(io::ErrorKind::UnexpectedEof.into());
        }
        took.push(start.elapsed().as_nanos());
    }
    Ok(took)
}

fn main() -> io::Result<()> {
    let words: Vec<String> = std::env::args().collect();
    let [_, address, connections, lines, how] = &words[..] else {
        panic!("serve_load ADDRESS CONNECTIONS LINES ahead|polling|turns|latency");
    };
    let (connections, lines) = (connections.parse::<usize>().unwrap(), lines.parse::<usize>().unwrap());
    let links = (0..connections).map(|_| TcpStream::connect(address)).collect::<io::Result<Vec<_>>>()?;
    let barrier = Barrier::new(connections + 1);
    let (nanos, mut took) = thread::scope(|scope| {
        let all: Vec<_> = links
            .iter()
            .map(|link| {
                let barrier = &barrier;
                scope.spawn(move || {
                    link.set_nodelay(true)?;
                    barrier.wait();
                    match &how[..] {
                        "ahead" => ahead(link, lines).map(|()| Vec::new()),
                        "polling" => polling(link, lines).map(|()| Vec::new()),
                        _ => turns(link, lines),
                    }
                })
            })
            .collect();
        barrier.wait();
        let start = Instant::now();
        let mut took = Vec::new();
        for one in all {
            took.extend(one.join().unwrap()?);
        }
        io::Result::Ok((start.elapsed().as_nanos(), took))
    })?;
    for mut link in links {
        link.write_all(b"Q\n")?;
    }
    if how == "latency" {
        took.sort_unstable();
        let at = |hundredths: usize| took[(took.len() - 1) * hundredths / 100];
        println!("{} {} {}", at(50), at(99), at(100));
    } else {
        println!("{nanos}");
    }
    Ok(())
}
