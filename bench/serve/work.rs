//! What the clients of a server of sorted sets ask, and their connections.
#[path = "../client.rs"]
#[allow(dead_code)]
mod client;

pub use client::{request, Random};
use client::read_reply;
use std::io::{self, BufRead, BufReader, Write};
use std::net::TcpStream;
use std::sync::Barrier;

/// Members of all sets together.
const MEMBERS: u64 = 100_000;

/// Scores lie below this.
const SCORES: u64 = 10_000_000;

/// A connection, and what came on it.
pub struct Connection {
    pub stream: TcpStream,
    pub replies: BufReader<TcpStream>,
    /// The line of a reply that was read last.
    line: Vec<u8>,
}

impl Connection {
    /// Reads one whole reply, and keeps nothing of it; it may be no error.
    pub fn skip_reply(&mut self) -> io::Result<()> {
        let mut left = 1;
        while left > 0 {
            left -= 1;
            self.line.clear();
            self.replies.read_until(b'\n', &mut self.line)?;
            match self.line.first() {
                None => return Err(io::ErrorKind::UnexpectedEof.into()),
                Some(b'-') => panic!("{}", String::from_utf8_lossy(&self.line)),
                Some(b'*') => left += self.number(),
                Some(b'$') if self.line[1] != b'-' => self.skip(self.number() + 2)?,
                Some(_) => (),
            }
        }
        Ok(())
    }

    /// The number of the line: that of its digits.
    fn number(&self) -> usize {
        self.line[1..].iter().take_while(|it| it.is_ascii_digit()).fold(0, |n, it| n * 10 + usize::from(it - b'0'))
    }

    /// Reads so many bytes more.
    fn skip(&mut self, mut len: usize) -> io::Result<()> {
        while len > 0 {
            let here = self.replies.fill_buf()?.len().min(len);
            if here == 0 {
                return Err(io::ErrorKind::UnexpectedEof.into());
            }
            self.replies.consume(here);
            len -= here;
        }
        Ok(())
    }
}

/// A piece of work, how many requests are under way on a connection, on how many keys, and the server's port.
#[derive(Clone)]
pub struct Plan {
    pub work: String,
    pub pipelined: u64,
    pub keys: u64,
    pub port: u16,
}

impl Plan {
    pub fn connect(&self) -> io::Result<Connection> {
        let stream = TcpStream::connect(("127.0.0.1", self.port))?;
        stream.set_nodelay(true)?;
        let replies = BufReader::with_capacity(1 << 16, stream.try_clone()?);
        Ok(Connection { stream, replies, line: Vec::new() })
    }

    fn key(&self, random: &mut Random) -> String {
        format!("board:{}", random.below(self.keys))
    }

    /// Appends a request of the work.
    pub fn ask(&self, random: &mut Random, out: &mut Vec<u8>) {
        let key = self.key(random);
        let member = format!("member:{}", random.below(MEMBERS));
        let low = random.below(SCORES);
        let (from, to) = (low.to_string(), (low + SCORES / MEMBERS * self.keys * 100).to_string());
        match self.work.as_str() {
            "zadd" => request(&["ZADD", &key, &from, &member], out),
            "zscore" => request(&["ZSCORE", &key, &member], out),
            "zcard" => request(&["ZCARD", &key], out),
            "zcount" => request(&["ZCOUNT", &key, &from, "+inf"], out),
            "ten_lowest" => request(&["ZRANGEBYSCORE", &key, "-inf", "+inf", "LIMIT", "0", "10"], out),
            "ranges_of_100" => request(&["ZRANGEBYSCORE", &key, &from, &to], out),
            work => panic!("no work of the name {work}"),
        }
    }

    pub fn load(&self) -> io::Result<()> {
        let mut random = Random(7);
        let mut connection = self.connect()?;
        for first in (0..MEMBERS).step_by(100) {
            let mut words = vec![String::from("ZADD"), format!("board:{}", first / 100 % self.keys)];
            for member in first..first + 100 {
                words.extend([random.below(SCORES).to_string(), format!("member:{member}")]);
            }
            let mut out = Vec::new();
            request(&words, &mut out);
            connection.stream.write_all(&out)?;
            read_reply(&mut connection.replies)?;
        }
        Ok(())
    }

    /// The requests that are sent at once on one connection.
    fn batch(&self, random: &mut Random) -> Vec<u8> {
        let mut out = Vec::new();
        for _ in 0..self.pipelined {
            self.ask(random, &mut out);
        }
        out
    }

    /// So many rounds of requests and replies on so many connections.
    pub fn drive(&self, seed: u64, connections: u64, rounds: u64, start: &Barrier) -> io::Result<()> {
        let mut random = Random(seed);
        let batches: Vec<_> = (0..rounds * connections).map(|_| self.batch(&mut random)).collect();
        let mut connections = (0..connections).map(|_| self.connect()).collect::<io::Result<Vec<_>>>()?;
        start.wait();
        for round in batches.chunks(connections.len()) {
            for (connection, batch) in connections.iter_mut().zip(round) {
                connection.stream.write_all(batch)?;
            }
            for connection in &mut connections {
                for _ in 0..self.pipelined {
                    connection.skip_reply()?;
                }
            }
        }
        Ok(())
    }
}
