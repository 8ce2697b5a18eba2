//! A client of a server of sorted sets that speaks RESP2, on pipes or on loopback.
use std::io::{self, BufRead, BufReader, BufWriter, Read, Write};
use std::net::TcpStream;
use std::os::fd::OwnedFd;
use std::os::unix::net::UnixStream;
use std::process::{Child, Command, Stdio};
use std::time::Instant;

/// Random numbers of one seed (a linear congruential generator, Knuth's constants).
pub struct Random(pub u64);

impl Random {
    pub fn below(&mut self, n: u64) -> u64 {
        self.0 = self.0.wrapping_mul(6364136223846793005).wrapping_add(1442695040888963407);
        ((u128::from(self.0 >> 11) * u128::from(n)) >> 53) as u64
    }
}

#[derive(Debug, PartialEq)]
pub enum Reply {
    Line(String),
    Bulk(Option<Vec<u8>>),
    List(Vec<Reply>),
}

/// Appends the spelling of a request.
pub fn request<W: AsRef<[u8]>>(words: &[W], out: &mut Vec<u8>) {
    out.extend_from_slice(format!("*{}\r\n", words.len()).as_bytes());
    for word in words {
        let word = word.as_ref();
        out.extend_from_slice(format!("${}\r\n", word.len()).as_bytes());
        out.extend_from_slice(word);
        out.extend_from_slice(b"\r\n");
    }
}

fn ended() -> io::Error {
    io::Error::from(io::ErrorKind::UnexpectedEof)
}

/// Reads one whole reply. An end of the input before or inside it is an error.
pub fn read_reply(output: &mut impl BufRead) -> io::Result<Reply> {
    let mut line = String::new();
    output.read_line(&mut line)?;
    if !line.ends_with("\r\n") {
        return Err(ended());
    }
    line.truncate(line.len() - 2);
    let number = line[1..].parse::<i64>().unwrap_or(-1);
    match line.as_bytes()[0] {
        b'$' if number < 0 => Ok(Reply::Bulk(None)),
        b'$' => {
            let mut body = vec![0; number as usize + 2];
            output.read_exact(&mut body)?;
            body.truncate(number as usize);
            Ok(Reply::Bulk(Some(body)))
        }
        b'*' => (0..number).map(|_| read_reply(output)).collect::<io::Result<_>>().map(Reply::List),
        _ => Ok(Reply::Line(line)),
    }
}

pub struct Server {
    pub input: Option<Box<dyn Write + Send>>,
    pub output: BufReader<Box<dyn Read + Send>>,
    pub pid: u32,
    /// The server, where it was started here.
    pub child: Option<Child>,
}

impl Server {
    /// Starts a server that serves its standard input.
    pub fn start(program: &str, arguments: &[String]) -> io::Result<Server> {
        let mut child = Command::new(program)
            .args(arguments)
            .stdin(Stdio::piped())
            .stdout(Stdio::piped())
            .stderr(Stdio::piped())
            .spawn()?;
        let input = child.stdin.take().unwrap();
        let output = child.stdout.take().unwrap();
        Ok(Server {
            input: Some(Box::new(BufWriter::with_capacity(65536, input))),
            output: BufReader::with_capacity(65536, Box::new(output)),
            pid: child.id(),
            child: Some(child),
        })
    }

    /// Talks to a server on loopback.
    pub fn connect(port: u16, pid: u32) -> io::Result<Server> {
        let stream = TcpStream::connect(("127.0.0.1", port))?;
        stream.set_nodelay(true)?;
        Ok(Server {
            input: Some(Box::new(BufWriter::with_capacity(65536, stream.try_clone()?))),
            output: BufReader::with_capacity(65536, Box::new(stream)),
            pid,
            child: None,
        })
    }

    /// Starts a server of which standard input and output are one end of a pair of Unix sockets.
    pub fn start_on_sockets(program: &str, arguments: &[String]) -> io::Result<Server> {
        let (ours, theirs) = UnixStream::pair()?;
        let child = Command::new(program)
            .args(arguments)
            .stdin(Stdio::from(OwnedFd::from(theirs.try_clone()?)))
            .stdout(Stdio::from(OwnedFd::from(theirs)))
            .spawn()?;
        Server::of_stream(ours, child.id(), Some(child))
    }

    fn of_stream(stream: UnixStream, pid: u32, child: Option<Child>) -> io::Result<Server> {
        Ok(Server {
            input: Some(Box::new(BufWriter::with_capacity(65536, stream.try_clone()?))),
            output: BufReader::with_capacity(65536, Box::new(stream)),
            pid,
            child,
        })
    }

    /// The server that a bench's arguments name: `stdio PROGRAM ARGUMENTS..` on pipes, `pair PROGRAM ARGUMENTS..` on
    /// a pair of Unix sockets, `tcp PORT PID` or `unix PATH PID`.
    pub fn of_arguments(arguments: &[String]) -> io::Result<Server> {
        match arguments[0].as_str() {
            "stdio" => Server::start(&arguments[1], &arguments[2..]),
            "pair" => Server::start_on_sockets(&arguments[1], &arguments[2..]),
            "unix" => Server::of_stream(UnixStream::connect(&arguments[1])?, arguments[2].parse().unwrap(), None),
            _ => Server::connect(arguments[1].parse().unwrap(), arguments[2].parse().unwrap()),
        }
    }

    fn good_reply(&mut self) -> io::Result<Reply> {
        let reply = read_reply(&mut self.output)?;
        match &reply {
            Reply::Line(line) if line.starts_with('-') => panic!("{line}"),
            _ => Ok(reply),
        }
    }

    /// Sends all requests at once, while a thread of its own writes them, and gives the nanoseconds to the last
    /// reply.
    pub fn pipelined(&mut self, requests: Vec<u8>, count: u64) -> io::Result<u128> {
        let mut input = self.input.take().unwrap();
        let begin = Instant::now();
        let writer = std::thread::spawn(move || {
            input.write_all(&requests).and_then(|()| input.flush()).expect("the server reads");
            input
        });
        for _ in 0..count {
            self.good_reply()?;
        }
        let time = begin.elapsed().as_nanos();
        self.input = Some(writer.join().unwrap());
        Ok(time)
    }

    /// Sends one request and waits for its reply.
    pub fn ask<W: AsRef<[u8]>>(&mut self, words: &[W]) -> io::Result<Reply> {
        let mut text = Vec::new();
        request(words, &mut text);
        let input = self.input.as_mut().unwrap();
        input.write_all(&text)?;
        input.flush()?;
        read_reply(&mut self.output)
    }

    /// The nanoseconds from a request to its reply.
    pub fn time<W: AsRef<[u8]>>(&mut self, words: &[W]) -> io::Result<u128> {
        let mut text = Vec::new();
        request(words, &mut text);
        let begin = Instant::now();
        let input = self.input.as_mut().unwrap();
        input.write_all(&text)?;
        input.flush()?;
        self.good_reply()?;
        Ok(begin.elapsed().as_nanos())
    }
}
