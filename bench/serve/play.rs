// Asks servers over loopback, and prints what it measured. It is plain Rust, outside what is proved: `rustc -O play.rs`.
//
//     play rate session|redis PORT CONNECTIONS AHEAD FILE COUNT   requests a second: each connection asks COUNT of the file's messages,
//                                                                 round and round, and has at most AHEAD that are not answered
//     play wait PORT SAYS PORT AWAITS                             microseconds from a say to the reply of another node's waiting fetch
//     play publish PORT COUNT                                     microseconds from PUBLISH to a subscriber at Redis
//     play deliver PORT SAYS AHEAD FETCHES PORT ..                messages a second until each fetch gives an entry at each port
//     play idle PORT CONNECTIONS SECONDS                          opens connections on which nothing is sent
//     play pace SECONDS TOGETHER PORT FILE ..                     sends each file's messages once to its port, evenly over the seconds, so many
//                                                                 at once when their time has come; how many, how many were refused, and how
//                                                                 many seconds it took
//
// A file has messages: a length, four bytes with the high byte first, and so many bytes. To a session a message is sent as it is, and
// its reply is one too; to Redis what is behind the length is sent, and its reply is a line.
use std::io::{Read, Write};
use std::net::TcpStream;
use std::sync::{mpsc, Arc, Barrier};
use std::thread;
use std::time::{Duration, Instant};

fn length(bytes: &[u8]) -> Option<usize> {
    let head: [u8; 4] = bytes.get(..4)?.try_into().ok()?;
    Some(4 + u32::from_be_bytes(head) as usize)
}

fn messages(path: &str, is_session: bool) -> Vec<Vec<u8>> {
    let text = std::fs::read(path).expect("a file");
    let mut all = Vec::new();
    let mut rest = &text[..];
    while let Some(length) = length(rest) {
        let (message, others) = rest.split_at(length);
        all.push(if is_session { message } else { &message[4..] }.to_vec());
        rest = others;
    }
    all
}

fn connect(port: &str) -> TcpStream {
    let port: u16 = port.parse().expect("a port");
    let stream = TcpStream::connect(("127.0.0.1", port)).expect("a server");
    stream.set_nodelay(true).expect("no delay");
    stream
}

// Reads replies one after the other.
struct Reader {
    stream: TcpStream,
    space: Vec<u8>,
    at: usize,
    end: usize,
    is_session: bool,
}

impl Reader {
    fn new(stream: &TcpStream, is_session: bool) -> Reader {
        let stream = stream.try_clone().expect("a stream");
        Reader { stream, space: vec![0; 1 << 20], at: 0, end: 0, is_session }
    }

    // Where the first reply ends, if it is whole.
    fn whole(&self) -> Option<usize> {
        let came = &self.space[self.at..self.end];
        if self.is_session {
            length(came).filter(|length| came.len() >= *length)
        } else {
            came.windows(2).position(|two| two == b"\r\n").map(|place| place + 2)
        }
    }

    fn next(&mut self) -> &[u8] {
        loop {
            if let Some(length) = self.whole() {
                let begin = self.at + if self.is_session { 4 } else { 0 };
                self.at += length;
                return &self.space[begin..self.at];
            }
            self.space.copy_within(self.at..self.end, 0);
            self.end -= self.at;
            self.at = 0;
            let count = self.stream.read(&mut self.space[self.end..]).expect("a reply");
            assert!(count > 0, "the connection was closed");
            self.end += count;
        }
    }
}

fn is_refusal(is_session: bool, reply: &[u8]) -> bool {
    if is_session { reply.starts_with(b"refused") } else { !reply.starts_with(b":") }
}

// Asks on one connection. How many replies were refusals.
fn ask(port: &str, is_session: bool, all: &[Vec<u8>], first: usize, count: usize, ahead: usize, start: &Barrier) -> u64 {
    let mut stream = connect(port);
    let mut reader = Reader::new(&stream, is_session);
    let (mut sent, mut got, mut refused) = (0, 0, 0);
    start.wait();
    while got < count {
        let mut out = Vec::new();
        while sent < count && sent - got < ahead {
            out.extend_from_slice(&all[(first + sent) % all.len()]);
            sent += 1;
        }
        stream.write_all(&out).expect("a server");
        for _ in 0..(ahead / 2).max(1).min(count - got) {
            refused += u64::from(is_refusal(is_session, reader.next()));
            got += 1;
        }
    }
    refused
}

fn rate(words: &[String]) {
    let is_session = words[0] == "session";
    let [connections, ahead, count] = [2, 3, 5].map(|place: usize| words[place].parse::<usize>().expect("a number"));
    let all = Arc::new(messages(&words[4], is_session));
    let start = Arc::new(Barrier::new(connections + 1));
    let askers: Vec<_> = (0..connections)
        .map(|number| {
            let (all, start, port) = (all.clone(), start.clone(), words[1].clone());
            thread::spawn(move || ask(&port, is_session, &all, number * count, count, ahead, &start))
        })
        .collect();
    start.wait();
    let begun = Instant::now();
    let refused: u64 = askers.into_iter().map(|asker| asker.join().expect("an asker")).sum();
    let whole = connections * count;
    println!("{whole} {refused} {:.0}", whole as f64 / begun.elapsed().as_secs_f64());
}

fn told(mut times: Vec<f64>) {
    times.sort_by(f64::total_cmp);
    let at = |part: f64| times[((times.len() - 1) as f64 * part) as usize];
    println!("{} {:.0} {:.0} {:.0}", times.len(), at(0.5), at(0.99), at(1.0));
}

fn micros(from: Instant, to: Instant) -> f64 {
    to.saturating_duration_since(from).as_secs_f64() * 1e6
}

fn wait(words: &[String]) {
    let (says, awaits) = (messages(&words[1], true), messages(&words[3], true));
    let (mut sayer, mut waiter) = (connect(&words[0]), connect(&words[2]));
    let (mut said, mut heard) = (Reader::new(&sayer, true), Reader::new(&waiter, true));
    let (go, went) = mpsc::channel::<()>();
    let (done, came) = mpsc::channel::<Instant>();
    let listener = thread::spawn(move || {
        for message in awaits {
            went.recv().expect("a say");
            waiter.write_all(&message).expect("a server");
            assert!(heard.next().starts_with(b"log 1"), "no entry came");
            done.send(Instant::now()).expect("a sayer");
        }
    });
    let mut times = Vec::new();
    for say in &says {
        go.send(()).expect("a listener");
        thread::sleep(Duration::from_micros(500));
        let begun = Instant::now();
        sayer.write_all(say).expect("a server");
        assert!(said.next().starts_with(b"said"), "a say was refused");
        times.push(micros(begun, came.recv().expect("a listener")));
    }
    listener.join().expect("a listener");
    told(times);
}

fn publish(words: &[String]) {
    let count: usize = words[1].parse().expect("a number");
    let (mut publisher, mut subscriber) = (connect(&words[0]), connect(&words[0]));
    let mut replies = Reader::new(&publisher, false);
    subscriber.write_all(b"SUBSCRIBE chat\r\n").expect("a server");
    let mut space = [0; 4096];
    subscriber.read(&mut space).expect("a reply");
    let (done, came) = mpsc::channel();
    thread::spawn(move || {
        let mut space = [0; 4096];
        while subscriber.read(&mut space).is_ok_and(|count| count > 0) {
            if done.send(Instant::now()).is_err() {
                return;
            }
        }
    });
    let mut times = Vec::new();
    for _ in 0..count {
        thread::sleep(Duration::from_micros(500));
        let begun = Instant::now();
        publisher.write_all(b"PUBLISH chat 0123456789abcdef\r\n").expect("a server");
        replies.next();
        times.push(micros(begun, came.recv().expect("a subscriber")));
    }
    told(times);
}

// Says all, then asks for each entry at each port until it is there.
fn deliver(words: &[String]) {
    let (says, ahead) = (messages(&words[1], true), words[2].parse::<usize>().expect("a number"));
    let mut stream = connect(&words[0]);
    let mut reader = Reader::new(&stream, true);
    let mut others: Vec<_> = words[3..]
        .chunks(2)
        .map(|other| {
            let stream = connect(&other[1]);
            let reader = Reader::new(&stream, true);
            (stream, reader, messages(&other[0], true))
        })
        .collect();
    let begun = Instant::now();
    let (mut sent, mut got, mut refused) = (0, 0, 0);
    while got < says.len() {
        let mut out = Vec::new();
        while sent < says.len() && sent - got < ahead {
            out.extend_from_slice(&says[sent]);
            sent += 1;
        }
        stream.write_all(&out).expect("a server");
        for _ in 0..(ahead / 2).max(1).min(says.len() - got) {
            refused += u64::from(is_refusal(true, reader.next()));
            got += 1;
        }
    }
    for (stream, reader, fetches) in &mut others {
        for fetch in fetches {
            loop {
                stream.write_all(fetch).expect("a server");
                if reader.next().starts_with(b"log 1") {
                    break;
                }
                assert!(begun.elapsed() < Duration::from_secs(60), "not delivered in a minute");
                thread::sleep(Duration::from_micros(200));
            }
        }
    }
    println!("{} {refused} {:.0}", says.len(), says.len() as f64 / begun.elapsed().as_secs_f64());
}

fn idle(words: &[String]) {
    let count: usize = words[1].parse().expect("a number");
    let open: Vec<_> = (0..count).map(|_| connect(&words[0])).collect();
    println!("open {}", open.len());
    thread::sleep(Duration::from_secs_f64(words[2].parse().expect("seconds")));
}

// Sends messages when their time has come, whether the ones before are answered or not. The ports take turns.
fn pace(words: &[String]) {
    let seconds: f64 = words[0].parse().expect("seconds");
    let together: usize = words[1].parse().expect("a number");
    let ports = words[2..].len() / 2;
    let start = Arc::new(Barrier::new(ports + 1));
    let senders: Vec<_> = words[2..]
        .chunks(2)
        .enumerate()
        .map(|(port, one)| {
            let (mut stream, all, start) = (connect(&one[0]), messages(&one[1], true), start.clone());
            let (mut reader, count) = (Reader::new(&stream, true), all.len());
            let replies = thread::spawn(move || (0..count).map(|_| u64::from(is_refusal(true, reader.next()))).sum::<u64>());
            thread::spawn(move || {
                let gap = seconds / count as f64;
                start.wait();
                let begun = Instant::now();
                for (number, some) in all.chunks(together).enumerate() {
                    let due = Duration::from_secs_f64(gap * together as f64 * (number as f64 + port as f64 / ports as f64));
                    if let Some(left) = due.checked_sub(begun.elapsed()) {
                        thread::sleep(left);
                    }
                    stream.write_all(&some.concat()).expect("a server");
                }
                (count, replies.join().expect("replies"))
            })
        })
        .collect();
    start.wait();
    let begun = Instant::now();
    let (mut sent, mut refused) = (0, 0);
    for sender in senders {
        let (count, bad) = sender.join().expect("a sender");
        sent += count;
        refused += bad;
    }
    println!("{sent} {refused} {:.3}", begun.elapsed().as_secs_f64());
}

fn main() {
    let words: Vec<String> = std::env::args().skip(1).collect();
    match words[0].as_str() {
        "rate" => rate(&words[1..]),
        "wait" => wait(&words[1..]),
        "publish" => publish(&words[1..]),
        "deliver" => deliver(&words[1..]),
        "idle" => idle(&words[1..]),
        "pace" => pace(&words[1..]),
        other => panic!("no such measurement: {other}"),
    }
}
