// A client that stays and its yardstick, for bench/daemon and bench/checkpoints; each prints how
// many it made a second.
//
//     submissions ask PORT COUNT       submits the script `date` by ann to the daemon at this port,
//                                      one after the other
//     submissions edits PORT COUNT     disables the queue `batch` by root, so many times
//     submissions turnover PORT COUNT  deletes the oldest request and submits one, in turn, so many
//                                      of both; behind `ask`
//     submissions plain FOLDER COUNT   the writes and syncs of such a submission: its script, its
//                                      record, and its gate
use std::env;
use std::fs::File;
use std::io::Result;
use std::net::UdpSocket;
use std::os::unix::fs::FileExt;
use std::path::Path;
use std::time::{Duration, Instant};

const SCRIPT: &[u8] = b"date\n";
const RECORD: [u8; 80] = [0; 80];
const ANSWER: u8 = 11;

const QSUB: u8 = 1;
const QDEL: u8 = 3;
const QMGR: u8 = 4;

// What a client asks for.
struct Ask {
    user: &'static [u8],
    tool: u8,
    words: Vec<Vec<u8>>,
    script: &'static [u8],
}

fn submission() -> Ask {
    Ask { user: b"ann", tool: QSUB, words: Vec::new(), script: SCRIPT }
}

fn edit() -> Ask {
    Ask { user: b"root", tool: QMGR, words: vec![b"disable queue batch".to_vec()], script: b"" }
}

fn deletion(number: u64) -> Ask {
    Ask { user: b"ann", tool: QDEL, words: vec![format!("{}.alpha", number).into_bytes()], script: b"" }
}

fn datagram_of(ask: &Ask, port: u16, token: u64) -> Vec<u8> {
    let mut datagram = vec![2, 10, 0, 0];
    datagram.extend(port.to_be_bytes());
    datagram.extend(token.to_be_bytes());
    datagram.push(ask.user.len() as u8);
    datagram.extend(ask.user);
    datagram.push(ask.tool);
    datagram.extend((ask.words.len() as u16).to_be_bytes());
    for word in &ask.words {
        datagram.extend((word.len() as u32).to_be_bytes());
        datagram.extend(word);
    }
    datagram.extend((ask.script.len() as u32).to_be_bytes());
    datagram.extend(ask.script);
    datagram
}

// Whether it is a good answer to the ask with this token.
fn answers(datagram: &[u8], token: u64) -> bool {
    datagram.len() > 12 && datagram[1] == ANSWER && datagram[4..12] == token.to_be_bytes() && datagram[12] == 1
}

// Asks for so many things, one after the other; the numbers go from 1.
fn ask(port: u16, count: u64, ask_of: impl Fn(u64) -> Ask) -> Result<()> {
    let socket = UdpSocket::bind("127.0.0.1:0")?;
    socket.connect(("127.0.0.1", port))?;
    socket.set_read_timeout(Some(Duration::from_secs(5)))?;
    let own = socket.local_addr()?.port();
    let mut room = [0; 65536];
    for token in 1..=count {
        socket.send(&datagram_of(&ask_of(token), own, token))?;
        let length = socket.recv(&mut room)?;
        assert!(answers(&room[..length], token), "what was asked for was refused");
    }
    Ok(())
}

fn plain(folder: &Path, count: u64) -> Result<()> {
    let spool = File::create(folder.join("plain.spool"))?;
    let journal = File::create(folder.join("plain.journal"))?;
    for number in 0..count {
        spool.write_all_at(SCRIPT, number * SCRIPT.len() as u64)?;
        spool.sync_data()?;
        journal.write_all_at(&RECORD, number * RECORD.len() as u64)?;
        journal.sync_data()?;
        journal.write_all_at(b"\x01", number * RECORD.len() as u64)?;
        journal.sync_data()?;
    }
    Ok(())
}

fn main() -> Result<()> {
    let words: Vec<String> = env::args().collect();
    let count = words[3].parse().expect("a number");
    let began = Instant::now();
    let port = || words[2].parse().expect("a port");
    match words[1].as_str() {
        "ask" => ask(port(), count, |_| submission())?,
        "edits" => ask(port(), count, |_| edit())?,
        "turnover" => ask(port(), count, |n| if n % 2 == 1 { deletion(n / 2 + 1) } else { submission() })?,
        _ => plain(Path::new(&words[2]), count)?,
    }
    println!("{:.1}", count as f64 / began.elapsed().as_secs_f64());
    Ok(())
}
