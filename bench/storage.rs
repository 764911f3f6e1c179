// The yardstick of bench/storage: the same work on the storage of a host as `nqs_bench` does, in
// plain Rust.
//
// A disk in memory keeps its bytes and all its calls with the bytes written. The journal appends a
// record by four calls: length, payload and the next gate; a sync; the record's own gate; a sync.
// The spool puts a list of bytes at the least place where it meets no live extent, which it finds
// in a balanced tree of what is live: each node knows the end of its part and the widest gap within
// it.
use std::env;
use std::process::exit;

enum Call {
    #[allow(dead_code)]
    Write { place: u64, bytes: Box<[u8]>, done: bool },
    #[allow(dead_code)]
    Sync { done: bool },
}

#[derive(Default)]
struct Disk {
    content: Vec<u8>,
    calls: Vec<Call>,
}

impl Disk {
    fn write_at(&mut self, place: u64, bytes: &[u8]) {
        let start = place as usize;
        let end = start + bytes.len();
        if self.content.len() < end {
            self.content.resize(end, 0);
        }
        self.content[start..end].copy_from_slice(bytes);
        self.calls.push(Call::Write { place, bytes: bytes.into(), done: true });
    }

    fn sync(&mut self) {
        self.calls.push(Call::Sync { done: true });
    }
}

fn append_payloads(count: u64) -> usize {
    let payload = [7u8; 100];
    let mut disk = Disk::default();
    disk.write_at(0, b"NQS-JOURNAL-v2\n\n\0");
    disk.sync();
    let mut gate = 16u64;
    let mut buffer = Vec::with_capacity(65_541);
    for _ in 0..count {
        buffer.clear();
        buffer.extend_from_slice(&(payload.len() as u32).to_be_bytes());
        buffer.extend_from_slice(&payload);
        buffer.push(0);
        disk.write_at(gate + 1, &buffer);
        disk.sync();
        disk.write_at(gate, &[1]);
        disk.sync();
        gate += 5 + payload.len() as u64;
    }
    disk.content.len() + disk.calls.len()
}

#[derive(Clone, Copy)]
struct Extent {
    place: u64,
    length: u64,
}

// A treap of extents by place. `start` and `end` are those of the part below, `gap` the widest free
// range within it.
struct Node {
    extent: Extent,
    rank: u64,
    start: u64,
    end: u64,
    gap: u64,
    left: Tree,
    right: Tree,
}

type Tree = Option<Box<Node>>;

fn mend(node: &mut Node) {
    let (mut start, mut gap) = (node.extent.place, 0);
    if let Some(left) = &node.left {
        start = left.start;
        gap = left.gap.max(node.extent.place - left.end);
    }
    let own_end = node.extent.place + node.extent.length;
    let mut end = own_end;
    if let Some(right) = &node.right {
        end = right.end;
        gap = gap.max(right.gap).max(right.start - own_end);
    }
    (node.start, node.end, node.gap) = (start, end, gap);
}

// Those before the place, and the others.
fn split(tree: Tree, place: u64) -> (Tree, Tree) {
    match tree {
        None => (None, None),
        Some(mut node) if node.extent.place < place => {
            let (left, right) = split(node.right.take(), place);
            node.right = left;
            mend(&mut node);
            (Some(node), right)
        }
        Some(mut node) => {
            let (left, right) = split(node.left.take(), place);
            node.left = right;
            mend(&mut node);
            (left, Some(node))
        }
    }
}

fn join(left: Tree, right: Tree) -> Tree {
    match (left, right) {
        (None, tree) | (tree, None) => tree,
        (Some(mut a), Some(mut b)) => {
            if a.rank > b.rank {
                a.right = join(a.right.take(), Some(b));
                mend(&mut a);
                Some(a)
            } else {
                b.left = join(Some(a), b.left.take());
                mend(&mut b);
                Some(b)
            }
        }
    }
}

// The least place from `from` on, within the part or right behind it, where so many bytes meet no
// extent.
fn least_place(tree: &Tree, from: u64, length: u64) -> u64 {
    let Some(node) = tree else { return from };
    if node.start - from >= length {
        return from;
    }
    if node.gap < length {
        return node.end;
    }
    let place = least_place(&node.left, from, length);
    if place + length <= node.extent.place {
        return place;
    }
    least_place(&node.right, node.extent.place + node.extent.length, length)
}

#[derive(Default)]
struct Spool {
    disk: Disk,
    live: Tree,
    seed: u64,
}

impl Spool {
    fn put(&mut self, bytes: &[u8]) -> Extent {
        let extent = Extent { place: least_place(&self.live, 0, bytes.len() as u64), length: bytes.len() as u64 };
        self.disk.write_at(extent.place, bytes);
        self.disk.sync();
        self.seed = self.seed.wrapping_mul(6_364_136_223_846_793_005).wrapping_add(1_442_695_040_888_963_407);
        let node = Node {
            extent,
            rank: self.seed >> 16,
            start: extent.place,
            end: extent.place + extent.length,
            gap: 0,
            left: None,
            right: None,
        };
        let (left, right) = split(self.live.take(), extent.place);
        self.live = join(join(left, Some(Box::new(node))), right);
        extent
    }

    fn free(&mut self, extent: Extent) {
        let (left, rest) = split(self.live.take(), extent.place);
        let (_, right) = split(rest, extent.place + 1);
        self.live = join(left, right);
    }
}

fn length_of(turn: u64) -> usize {
    (turn % 2_000 * 7_919 % 2_000 + 1) as usize
}

fn put_and_free(count: u64, live: u64) -> usize {
    let bytes = [7u8; 2_000];
    let mut spool = Spool::default();
    let mut extents: Vec<Extent> = (0..live).map(|turn| spool.put(&bytes[..length_of(turn)])).collect();
    for turn in 0..count {
        let at = (turn % live.max(1)) as usize;
        spool.free(extents[at]);
        extents[at] = spool.put(&bytes[..length_of(turn)]);
    }
    spool.disk.content.len() + spool.disk.calls.len()
}

fn main() {
    let words: Vec<String> = env::args().skip(1).collect();
    let number = |at: usize| words.get(at).and_then(|word| word.parse().ok()).unwrap_or_else(|| exit(2));
    let kept = match words.first().map(String::as_str) {
        Some("journal") => append_payloads(number(1)),
        Some("spool") => put_and_free(number(1), number(2)),
        _ => exit(2),
    };
    // What was kept is used, so that the work is done.
    if kept == 0 {
        exit(1);
    }
}
