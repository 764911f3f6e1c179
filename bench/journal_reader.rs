// A plain reader of a host's active journal, the yardstick of bench/checkpoints for a boot.
//
//     journal_reader FOLDER TIMES   reads the journal that FOLDER/root names so many times, and
//                                   prints the requests, the records behind the snapshot, the
//                                   bytes, and the least time in seconds that a reading took
//
// It reads the bytes from the file, spells out the snapshot into a list of requests with a table of
// their numbers, and makes each record behind it. It knows the records of submissions, deletions,
// boots, and of edits of one name, and trusts the bytes.
use std::collections::HashMap;
use std::env;
use std::fs;
use std::io::Result;
use std::path::Path;
use std::time::Instant;

struct Fields<'a> {
    bytes: &'a [u8],
    place: usize,
}

impl<'a> Fields<'a> {
    fn take(&mut self, length: usize) -> &'a [u8] {
        let taken = &self.bytes[self.place..self.place + length];
        self.place += length;
        taken
    }

    fn number(&mut self, width: usize) -> u64 {
        self.take(width).iter().fold(0, |value, byte| value << 8 | u64::from(*byte))
    }

    fn flag(&mut self) -> bool {
        self.number(1) == 1
    }

    fn name(&mut self) -> String {
        let length = self.number(1) as usize;
        String::from_utf8(self.take(length).to_vec()).expect("a name")
    }

    fn maybe<T>(&mut self, read: impl Fn(&mut Self) -> T) -> Option<T> {
        if self.flag() { Some(read(self)) } else { None }
    }

    fn list<T>(&mut self, read: impl Fn(&mut Self) -> T) -> Vec<T> {
        let count = self.number(8) as usize;
        (0..count).map(|_| read(self)).collect()
    }

    fn id(&mut self) -> (u64, u64) {
        (self.number(4), self.number(1))
    }

    fn extent(&mut self) -> (u64, u64) {
        (self.number(8), self.number(4))
    }
}

#[allow(dead_code)]
struct Queue {
    name: String,
    kind: u64,
    enabled: bool,
    started: bool,
    pipe_only: bool,
    priority: u64,
    run_limit: u64,
    limits: [Option<u64>; 3],
    users: Option<Vec<String>>,
    destinations: Vec<(String, u64)>,
    devices: Vec<String>,
}

fn queue(fields: &mut Fields) -> Queue {
    Queue {
        name: fields.name(),
        kind: fields.number(1),
        enabled: fields.flag(),
        started: fields.flag(),
        pipe_only: fields.flag(),
        priority: fields.number(1),
        run_limit: fields.number(2),
        limits: [fields.maybe(|f| f.number(2)), fields.maybe(|f| f.number(8)), fields.maybe(|f| f.number(8))],
        users: fields.maybe(|f| f.list(Fields::name)),
        destinations: fields.list(|f| (f.name(), f.number(1))),
        devices: fields.list(Fields::name),
    }
}

#[allow(dead_code)]
struct Job {
    name: String,
    owner: String,
    priority: u64,
    earliest: u64,
    rerunnable: bool,
    seconds: Option<u64>,
    memory: Option<u64>,
    forms: Option<String>,
    output: String,
    error: String,
    joined: bool,
}

fn job(fields: &mut Fields) -> Job {
    Job {
        name: fields.name(),
        owner: fields.name(),
        priority: fields.number(1),
        earliest: fields.number(8),
        rerunnable: fields.flag(),
        seconds: fields.maybe(|f| f.number(8)),
        memory: fields.maybe(|f| f.number(8)),
        forms: fields.maybe(Fields::name),
        output: fields.name(),
        error: fields.name(),
        joined: fields.flag(),
    }
}

#[allow(dead_code)]
struct Request {
    id: (u64, u64),
    job: Job,
    queue: String,
    state: u64,
    hold: u64,
    arrival: u64,
    doomed: bool,
    starts: u64,
    lost: u64,
    hops: u64,
    device: Option<String>,
    refusals: Vec<((String, u64), u64)>,
    script: (u64, u64),
}

fn request(fields: &mut Fields) -> Request {
    Request {
        id: fields.id(),
        job: job(fields),
        queue: fields.name(),
        state: fields.number(1),
        hold: fields.number(1),
        arrival: fields.number(8),
        doomed: fields.flag(),
        starts: fields.number(2),
        lost: fields.number(2),
        hops: fields.number(1),
        device: fields.maybe(Fields::name),
        refusals: fields.list(|f| ((f.name(), f.number(1)), f.number(1))),
        script: fields.extent(),
    }
}

struct Host {
    queues: Vec<Queue>,
    requests: Vec<Option<Request>>,
    places: HashMap<(u64, u64), usize>,
    last: u64,
    arrivals: u64,
}

// The rest of a snapshot, of which a host without complexes, devices, handovers and outputs has but
// counts.
fn host(fields: &mut Fields) -> Host {
    let _me = fields.number(1);
    let _site = fields.list(Fields::name);
    let queues = fields.list(queue);
    assert_eq!((fields.number(8), fields.number(8)), (0, 0), "complexes and devices");
    let requests = fields.list(|f| Some(request(f)));
    assert_eq!((fields.number(8), fields.number(8)), (0, 0), "handovers and promises");
    let _peers = fields.list(|f| (f.take(16).len(), f.list(|g| g.number(8)), f.take(24).len()));
    assert_eq!((fields.number(8), fields.number(8)), (0, 0), "stages and files");
    let _managers = fields.list(Fields::name);
    let _operators = fields.list(Fields::name);
    let _default = fields.maybe(Fields::name);
    let _limits = (fields.number(2), fields.number(8), fields.number(8));
    let (last, arrivals, _file) = (fields.number(4), fields.number(8), fields.number(8));
    let places = requests.iter().flatten().map(|r| r.id).enumerate().map(|(place, id)| (id, place)).collect();
    Host { queues, requests, places, last, arrivals }
}

impl Host {
    fn submitted(&mut self, fields: &mut Fields) {
        let queue = fields.name();
        let job = job(fields);
        let script = fields.extent();
        self.last += 1;
        self.arrivals += 1;
        let id = (self.last, 0);
        self.places.insert(id, self.requests.len());
        self.requests.push(Some(Request {
            id,
            job,
            queue,
            state: 0,
            hold: 0,
            arrival: self.arrivals,
            doomed: false,
            starts: 0,
            lost: 0,
            hops: 0,
            device: None,
            refusals: Vec::new(),
            script,
        }));
    }

    fn edited(&mut self, fields: &mut Fields) {
        let number = fields.number(1);
        let name = fields.name();
        let queue = self.queues.iter_mut().find(|queue| queue.name == name).expect("a queue");
        match number {
            5 | 6 => queue.enabled = number == 5,
            7 | 8 => queue.started = number == 7,
            _ => panic!("edit {number}"),
        }
    }

    fn make(&mut self, payload: &[u8]) {
        let mut fields = Fields { bytes: payload, place: 1 };
        match payload[0] {
            2 => self.submitted(&mut fields),
            3 => {
                let place = self.places.remove(&fields.id()).expect("a request");
                self.requests[place] = None;
            }
            8 => {}
            9 => self.edited(&mut fields),
            kind => panic!("kind {kind}"),
        }
    }
}

fn read(folder: &Path) -> Result<(usize, usize, usize)> {
    let root = fs::read(folder.join("root"))?;
    let second = root.first().is_some_and(|byte| byte % 2 == 1);
    let bytes = fs::read(folder.join(if second { "second" } else { "first" }))?;
    assert_eq!(&bytes[..16], b"NQS-SNAPSHOT-v2\n", "a journal with a snapshot");
    let mut fields = Fields { bytes: &bytes, place: 16 };
    let length = fields.number(8) as usize;
    let mut host = host(&mut Fields { bytes: fields.take(length), place: 0 });
    let mut records = 0;
    while fields.number(1) == 1 {
        let length = fields.number(4) as usize;
        host.make(fields.take(length));
        records += 1;
    }
    Ok((host.places.len(), records, bytes.len()))
}

fn main() -> Result<()> {
    let words: Vec<String> = env::args().collect();
    let folder = Path::new(&words[1]);
    let mut least = f64::MAX;
    let mut told = (0, 0, 0);
    for _ in 0..words[2].parse().expect("a number") {
        let began = Instant::now();
        told = read(folder)?;
        least = least.min(began.elapsed().as_secs_f64());
    }
    println!("{} {} {} {least:.6}", told.0, told.1, told.2);
    Ok(())
}
