//! A small cache with no proof, and copies without one, for ./bench to put beside the cache.
//!
//!     plain_cache KIND COUNT [CALLERS [FOLDER]]
//!
//! It keeps pages of 4096 bytes in a hash table and blocks of 64 pages in a list by their last use, behind one lock. Kinds with the names
//! of those of `crates/bench` do the same to as many bytes at the same places. `memcpy-N` copies N bytes with no cache; `pread-N` and
//! `pwrite-N` ask the system for them, of a file of the folder. Built by `rustc -O`.
use std::collections::HashMap;
use std::fs::{File, OpenOptions};
use std::hash::{BuildHasherDefault, Hasher};
use std::hint::black_box;
use std::os::unix::fs::FileExt;
use std::sync::Mutex;
use std::time::Instant;

const PAGE: usize = 4096;
const BLOCK: u64 = 64;
const NONE: usize = usize::MAX;

type Page = [u8; PAGE];

/// One multiplication for each number that is hashed.
#[derive(Default)]
struct Multiply(u64);

impl Hasher for Multiply {
    fn finish(&self) -> u64 {
        self.0
    }

    fn write(&mut self, bytes: &[u8]) {
        for byte in bytes {
            self.write_u64(u64::from(*byte));
        }
    }

    fn write_u64(&mut self, number: u64) {
        self.0 = (self.0.rotate_left(5) ^ number).wrapping_mul(0x517C_C1B7_2722_0A95);
    }
}

type Table<V> = HashMap<u64, V, BuildHasherDefault<Multiply>>;

enum Disk {
    Memory(Vec<Page>),
    File(File),
}

impl Disk {
    fn read(&self, page: u64, out: &mut Page) {
        match self {
            Disk::Memory(pages) => *out = pages[page as usize],
            Disk::File(file) => file.read_exact_at(out, page * PAGE as u64).unwrap(),
        }
    }

    fn write(&mut self, page: u64, bytes: &Page) {
        match self {
            Disk::Memory(pages) => pages[page as usize] = *bytes,
            Disk::File(file) => file.write_all_at(bytes, page * PAGE as u64).unwrap(),
        }
    }

    fn sync(&self) {
        if let Disk::File(file) = self {
            file.sync_data().unwrap();
        }
    }
}

struct Frame {
    bytes: Box<Page>,
    is_dirty: bool,
}

/// A block in the list by last use, and which of its pages are there.
struct Block {
    number: u64,
    present: u64,
    before: usize,
    behind: usize,
}

struct Stream {
    disk: Disk,
    frames: Table<Frame>,
    places: Table<usize>,
    blocks: Vec<Block>,
    most: usize,
    newest: usize,
    oldest: usize,
}

impl Stream {
    fn new(disk: Disk, most: usize) -> Stream {
        Stream {
            disk,
            frames: Table::default(),
            places: Table::default(),
            blocks: Vec::new(),
            most,
            newest: NONE,
            oldest: NONE,
        }
    }

    fn unlink(&mut self, at: usize) {
        let (before, behind) = (self.blocks[at].before, self.blocks[at].behind);
        match before {
            NONE => self.newest = behind,
            _ => self.blocks[before].behind = behind,
        }
        match behind {
            NONE => self.oldest = before,
            _ => self.blocks[behind].before = before,
        }
    }

    fn link(&mut self, at: usize) {
        self.blocks[at].before = NONE;
        self.blocks[at].behind = self.newest;
        match self.newest {
            NONE => self.oldest = at,
            newest => self.blocks[newest].before = at,
        }
        self.newest = at;
    }

    /// The place of a block, which is the one used last from now on. The oldest goes out where there are too many.
    fn touch(&mut self, number: u64) -> usize {
        if let Some(&at) = self.places.get(&number) {
            if self.newest != at {
                self.unlink(at);
                self.link(at);
            }
            return at;
        }
        let at = if self.blocks.len() < self.most {
            self.blocks.push(Block { number, present: 0, before: NONE, behind: NONE });
            self.blocks.len() - 1
        } else {
            let at = self.oldest;
            self.evict(at);
            self.unlink(at);
            self.blocks[at].number = number;
            at
        };
        self.link(at);
        self.places.insert(number, at);
        at
    }

    fn evict(&mut self, at: usize) {
        let number = self.blocks[at].number;
        while self.blocks[at].present != 0 {
            let bit = u64::from(self.blocks[at].present.trailing_zeros());
            self.blocks[at].present &= self.blocks[at].present - 1;
            let page = number * BLOCK + bit;
            if let Some(frame) = self.frames.remove(&page) {
                if frame.is_dirty {
                    self.disk.write(page, &frame.bytes);
                }
            }
        }
        self.places.remove(&number);
    }

    /// The frame of a page, which is brought in where it is not there.
    fn frame(&mut self, page: u64) -> &mut Frame {
        let at = self.touch(page / BLOCK);
        let bit = 1 << (page % BLOCK);
        if self.blocks[at].present & bit == 0 {
            let mut bytes = Box::new([0; PAGE]);
            self.disk.read(page, &mut bytes);
            self.blocks[at].present |= bit;
            self.frames.insert(page, Frame { bytes, is_dirty: false });
        }
        self.frames.get_mut(&page).unwrap()
    }

    fn read(&mut self, at: u64, out: &mut [u8]) {
        let mut done = 0;
        while done < out.len() {
            let place = at as usize + done;
            let within = place % PAGE;
            let many = (PAGE - within).min(out.len() - done);
            let frame = self.frame((place / PAGE) as u64);
            out[done..done + many].copy_from_slice(&frame.bytes[within..within + many]);
            done += many;
        }
    }

    fn write(&mut self, at: u64, bytes: &[u8]) {
        let mut done = 0;
        while done < bytes.len() {
            let place = at as usize + done;
            let within = place % PAGE;
            let many = (PAGE - within).min(bytes.len() - done);
            let frame = self.frame((place / PAGE) as u64);
            frame.bytes[within..within + many].copy_from_slice(&bytes[done..done + many]);
            frame.is_dirty = true;
            done += many;
        }
    }

    #[inline(never)]
    fn flush(&mut self) {
        let mut dirty: Vec<u64> = self.frames.iter().filter(|(_, frame)| frame.is_dirty).map(|(page, _)| *page).collect();
        dirty.sort_unstable();
        for page in dirty {
            let frame = self.frames.get_mut(&page).unwrap();
            self.disk.write(page, &frame.bytes);
            frame.is_dirty = false;
        }
        self.disk.sync();
    }
}

fn file_of(folder: &str, stream: usize) -> File {
    OpenOptions::new().read(true).write(true).open(format!("{folder}/{stream}.dat")).unwrap()
}

/// The bytes of a call, those of the stream, and the blocks of 256 KiB that may be in memory.
fn shape(kind: &str) -> (usize, u64, usize) {
    let bytes = match kind.rsplit('-').next().unwrap() {
        "48" => 48,
        "4k" => 4096,
        "64k" => 65536,
        "1m" | "4096" => 1 << 20,
        "64" => 262144,
        _ => 4096,
    };
    match kind.split('-').next().unwrap() {
        "miss" | "evict" => (bytes, 16 << 20, 8),
        "flush" => (bytes, 16 << 20, 64),
        _ => (bytes, 1 << 20, 8),
    }
}

/// So many bytes, of which no two that follow each other are equal.
fn unlike(many: usize) -> Vec<u8> {
    (0..many).map(|at| (at as u8).wrapping_mul(97)).collect()
}

fn caller(kind: &str, count: u64, stream: usize, cache: &Mutex<Vec<Stream>>, folder: Option<&str>) {
    let (len, size, _) = shape(kind);
    let stride = if kind.starts_with("evict") { 262144 } else { len.max(PAGE) as u64 };
    let places = (size / stride).max(1);
    let mut bytes = unlike(len);
    let source = unlike(size as usize);
    let file = folder.map(|folder| file_of(folder, stream));
    let what = kind.split('-').next().unwrap();
    for number in 0..count {
        let at = number % places * stride;
        match what {
            "memcpy" => {
                bytes.copy_from_slice(black_box(&source[at as usize..at as usize + len]));
                black_box(&mut bytes);
            }
            "pread" => file.as_ref().unwrap().read_exact_at(&mut bytes, at).unwrap(),
            "pwrite" => file.as_ref().unwrap().write_all_at(&bytes, at).unwrap(),
            "read" | "miss" | "evict" => cache.lock().unwrap()[stream].read(at, &mut bytes),
            "write" => cache.lock().unwrap()[stream].write(at, &bytes),
            "flush" => {
                let pieces = if kind == "flush-4096" { 16 } else { 1 };
                for piece in 0..pieces {
                    cache.lock().unwrap()[stream].write(piece * len as u64, &bytes);
                }
                cache.lock().unwrap()[stream].flush();
            }
            _ => panic!("`{kind}` is no kind of call"),
        }
    }
}

fn main() {
    let words: Vec<String> = std::env::args().collect();
    let (kind, count) = (words[1].as_str(), words[2].parse::<u64>().unwrap());
    let callers = words.get(3).map_or(0, |word| word.parse::<usize>().unwrap());
    let folder = words.get(4).map(String::as_str);
    let (_, size, most) = shape(kind);
    let mut streams = Vec::new();
    for number in 0..callers.max(1) {
        let disk = match folder {
            Some(folder) => Disk::File(file_of(folder, number)),
            None => Disk::Memory(vec![unlike(PAGE).try_into().unwrap(); size as usize / PAGE]),
        };
        let mut stream = Stream::new(disk, most);
        let mut bytes = [0; 65536];
        for part in 0..size / 65536 {
            stream.read(part * 65536, &mut bytes);
        }
        streams.push(stream);
    }
    let cache = Mutex::new(streams);
    let begun = Instant::now();
    std::thread::scope(|scope| {
        for stream in 1..callers {
            let cache = &cache;
            scope.spawn(move || caller(kind, count, stream, cache, folder));
        }
        caller(kind, count, 0, &cache, folder);
    });
    let nanos = begun.elapsed().as_nanos().max(1);
    let made = count * callers.max(1) as u64;
    println!("{kind} callers={callers} calls={made} refused=0 nanoseconds={nanos}");
}
