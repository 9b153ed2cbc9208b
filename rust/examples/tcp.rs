//! Sends a message to a station over TCP, and prints the first one that it receives:
//!
//!     cargo run --example tcp 127.0.0.1:7000 Hello
use ddcmp::{Config, State, Station};
use std::error::Error;
use std::io::{ErrorKind, Read, Write};
use std::net::TcpStream;
use std::time::{Duration, Instant};

const TIMER: Duration = Duration::from_secs(3);

/// A station, its connection, and when its reply timer expires.
struct Link {
    station: Station,
    line: TcpStream,
    deadline: Instant,
}

impl Link {
    fn write(&mut self) -> Result<(), Box<dyn Error>> {
        while let Some(frame) = self.station.poll() {
            self.line.write_all(frame)?;
        }
        if self.station.take_arm() {
            self.deadline = Instant::now() + TIMER;
        }
        Ok(())
    }

    /// Waits for bytes, or for the reply timer if it is on, and has the station handle them.
    fn read(&mut self) -> Result<(), Box<dyn Error>> {
        let left = self.deadline.saturating_duration_since(Instant::now());
        let wait = left.max(Duration::from_millis(1));
        self.line
            .set_read_timeout(Some(wait).filter(|_| self.station.timer_on()))?;
        let mut piece = [0; 4096];
        let length = match self.line.read(&mut piece) {
            Ok(0) => return Err("the line has ended".into()),
            Ok(length) => length,
            Err(it) if matches!(it.kind(), ErrorKind::WouldBlock | ErrorKind::TimedOut) => 0,
            Err(it) => return Err(it.into()),
        };
        let mut at = 0;
        while at < length {
            let fed = self.station.feed(&piece[at..length])?;
            at += fed.used;
            if let Some(notice) = fed.notice {
                println!("notice {} {}", notice.kind, notice.count);
            }
        }
        if self.station.take_arm() {
            self.deadline = Instant::now() + TIMER;
        } else if self.station.timer_on() && Instant::now() >= self.deadline {
            self.station.expire();
        }
        Ok(())
    }
}

fn main() -> Result<(), Box<dyn Error>> {
    let words: Vec<String> = std::env::args().skip(1).collect();
    let (address, message) = match words.as_slice() {
        [address, message] => (address, message),
        _ => return Err("usage: tcp HOST:PORT MESSAGE".into()),
    };
    let station = Station::new(Config::default())?;
    let line = TcpStream::connect(address)?;
    line.set_nodelay(true)?;
    let mut link = Link {
        station,
        line,
        deadline: Instant::now(),
    };
    link.station.start()?;
    let (mut is_sent, mut is_received) = (false, false);
    while !(is_sent && is_received && link.station.outgoing() == 0) {
        link.write()?;
        link.read()?;
        if !is_sent && link.station.state() == State::Running {
            link.station.send(message.as_bytes())?;
            is_sent = true;
        }
        while let Some(received) = link.station.take() {
            println!("mail {}", String::from_utf8_lossy(&received));
            is_received = true;
        }
    }
    link.write() // what acknowledges the last message
}
