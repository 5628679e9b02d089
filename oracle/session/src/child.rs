//! A run of the program as a child process, fed in pieces; a run that hangs is ended and told.

use std::io::{self, PipeWriter, Read, Write};
use std::os::fd::OwnedFd;
use std::os::unix::net::UnixDatagram;
use std::path::Path;
use std::process::{Child, Command, ExitStatus, Stdio};
use std::thread;
use std::time::{Duration, Instant};

/// A run that takes longer hangs.
const LIMIT: Duration = Duration::from_secs(60);

#[derive(Clone, Copy, Debug, PartialEq, Eq)]
pub enum Way {
    /// The program's reads may join pieces and part them.
    Pipe,
    /// Each piece is one read of the program's, as a datagram is.
    Reads,
}

enum Feed {
    Pipe(PipeWriter),
    Reads(UnixDatagram),
}

impl Feed {
    fn open(way: Way) -> io::Result<(Stdio, Feed)> {
        Ok(match way {
            Way::Pipe => {
                let (reader, writer) = io::pipe()?;
                (Stdio::from(reader), Feed::Pipe(writer))
            }
            Way::Reads => {
                let (reader, writer) = UnixDatagram::pair()?;
                (Stdio::from(OwnedFd::from(reader)), Feed::Reads(writer))
            }
        })
    }

    /// No piece is empty: an empty datagram is read as the end of the input.
    fn send(self, pieces: &[&[u8]]) -> io::Result<()> {
        match self {
            Feed::Pipe(mut pipe) => pieces.iter().try_for_each(|piece| pipe.write_all(piece)),
            Feed::Reads(socket) => {
                for piece in pieces {
                    socket.send(piece)?;
                }
                socket.send(b"").map(drop)
            }
        }
    }
}

/// All that the program wrote, and how it ended.
pub struct Ran {
    pub output: Vec<u8>,
    pub status: ExitStatus,
}

pub fn run(path: &Path, pieces: &[&[u8]], way: Way) -> io::Result<Ran> {
    let (stdin, feed) = Feed::open(way)?;
    let mut command = Command::new(path);
    let mut child = command.stdin(stdin).stdout(Stdio::piped()).spawn()?;
    // it holds the end of the input that is the child's
    drop(command);
    let mut stdout = child.stdout.take().expect("its output is a pipe");
    thread::scope(|scope| {
        // a program that ended reads no more, which its answers show
        scope.spawn(move || drop(feed.send(pieces)));
        let reader = scope.spawn(move || {
            let mut output = Vec::new();
            stdout.read_to_end(&mut output).map(|_| output)
        });
        let status = end(&mut child)?;
        let output = reader.join().expect("the reader does not panic")?;
        Ok(Ran { output, status })
    })
}

/// Waits for the end of the program and ends it if it hangs.
pub fn end(child: &mut Child) -> io::Result<ExitStatus> {
    let start = Instant::now();
    while start.elapsed() < LIMIT {
        if let Some(status) = child.try_wait()? {
            return Ok(status);
        }
        thread::sleep(Duration::from_millis(1));
    }
    child.kill()?;
    child.wait()?;
    Err(io::Error::other(format!("no end within {LIMIT:?}")))
}
