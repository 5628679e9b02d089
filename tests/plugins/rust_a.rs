// The plug-in of plugin.c in Rust, which spells the header by hand: a cdylib exports its own names alone.
const FRAME_SIZE: usize = 12;
const ANSWER_SIZE: usize = 6;
const BATCHES: usize = 3;
const BATCH_FRAMES: usize = 80;
const STEP_FRAMES: usize = 6;

const NEW: u8 = 0x00;
const CLONE: u8 = 0x01;
const RELEASE: u8 = 0x02;
const LENGTH: u8 = 0x03;
const GET: u8 = 0x04;
const SET: u8 = 0x05;
const PUSH: u8 = 0x06;
const DROP: u8 = 0x07;
const OPEN: u8 = 0x08;
const NEXT: u8 = 0x09;
const NEXT_BACK: u8 = 0x0A;
const CLOSE: u8 = 0x0B;
const FIRST: u8 = 0x0E;
const LAST: u8 = 0x0F;
const COMPARE: u8 = 0x10;

#[repr(C)]
pub struct Version {
    live: u32,
    root: u32,
    bits: u32,
    length: u32,
}

#[repr(C)]
pub struct Report {
    number: u32,
    frames: usize,
}

#[repr(C)]
pub struct Sizes {
    nodes: usize,
    used: usize,
    cells: usize,
    counts: usize,
    order: usize,
    versions: usize,
    walk_numbers: usize,
    walk_nodes: usize,
    walk_indices: usize,
}

#[repr(C)]
pub struct State {
    kinds: *mut u8,
    used: *mut u8,
    counts: *mut u32,
    cells: *mut u32,
    order: *mut u32,
    versions: *mut Version,
    walk_numbers: *mut u32,
    walk_nodes: *mut u32,
    walk_indices: *mut i32,
    sizes: Sizes,
}

#[repr(C)]
pub struct Transcript {
    frames: usize,
    room: usize,
    requests: *mut u8,
    answers: *mut u8,
}

#[link(name = "host", kind = "static")]
extern "C" {
    fn jumperloft1_batch(
        kinds: *mut u8, kinds_count: usize, used: *mut u8, used_count: usize,
        counts: *mut u32, counts_count: usize, cells: *mut u32, cells_count: usize,
        order: *mut u32, order_count: usize, versions: *mut Version, versions_count: usize,
        walk_numbers: *mut u32, walk_numbers_count: usize, walk_nodes: *mut u32, walk_nodes_count: usize,
        walk_indices: *mut i32, walk_indices_count: usize,
        requests: *const u8, requests_count: usize, answers: *mut u8, answers_count: usize,
    ) -> Report;
}

// The frames of a batch so far; current is the slot whose version grows.
struct Writer {
    seed: u32,
    party: u8,
    current: u8,
    frames: Vec<u8>,
}

impl Writer {
    fn draw(&mut self) -> u32 {
        self.seed ^= self.seed << 13;
        self.seed ^= self.seed >> 17;
        self.seed ^= self.seed << 5;
        self.seed
    }

    fn say(&mut self, operation: u8, slot: u8, destination: u8, index: u32, value: u32) {
        self.frames.extend([self.party, operation, slot, destination]);
        self.frames.extend(index.to_be_bytes());
        self.frames.extend(value.to_be_bytes());
    }

    // Another slot than the current one, made empty.
    fn emptied(&mut self) -> u8 {
        let other = ((self.current as u32 + 1 + self.draw() % 7) % 8) as u8;
        self.say(RELEASE, other, 0, 0, 0);
        other
    }

    fn edit(&mut self, operation: u8, index: u32) {
        let other = self.emptied();
        let value = self.draw();
        self.say(operation, self.current, other, index, value);
        self.say(GET, other, 0, index, 0);
    }

    fn grow(&mut self) {
        let other = self.emptied();
        let value = self.draw();
        self.say(PUSH, self.current, other, 0, value);
        self.say(RELEASE, self.current, 0, 0, 0);
        self.current = other;
    }

    fn look(&mut self, slot: u8) {
        self.say(LENGTH, slot, 0, 0, 0);
        self.say(FIRST, slot, 0, 0, 0);
        self.say(LAST, slot, 0, 0, 0);
        self.say(COMPARE, self.current, slot, 0, 0);
    }

    fn step(&mut self) {
        let kind = self.draw() % 20;
        let slot = (self.draw() % 8) as u8;
        let walk = (self.draw() % 2) as u8;
        let index = self.draw() % 256 >> self.draw() % 8;
        match kind {
            0 => self.edit(NEW, 1 + index % 5),
            1 | 2 => self.edit(SET, index),
            3 => self.edit(DROP, index),
            4 => self.edit(CLONE, index),
            5 | 6 => self.look(slot),
            7 => self.say(OPEN, slot, walk, 0, 0),
            8 | 9 => {
                self.say(NEXT, walk, 0, 0, 0);
                self.say(NEXT_BACK, walk, 0, 0, 0);
            }
            10 => self.say(CLOSE, walk, 0, 0, 0),
            11 => {
                let (destination, number, value) = ((self.draw() % 10) as u8, self.draw() % 40, self.draw());
                self.say((index % 20) as u8, slot, destination, number, value);
            }
            _ => self.grow(),
        }
    }

    // Slot 0 holds what grows from one run to the next.
    fn write_batch(&mut self, number: usize) {
        self.frames.clear();
        if number == 0 {
            self.say(NEW, 0, 0, 1 + self.seed % 5, 0);
        }
        while self.frames.len() / FRAME_SIZE + STEP_FRAMES + 2 <= BATCH_FRAMES {
            self.step();
        }
        if number == BATCHES - 1 && self.current != 0 {
            self.say(RELEASE, 0, 0, 0, 0);
            self.say(CLONE, self.current, 0, 0, 0);
        }
    }
}

// The lent state must be as the header says, and the book have the room that it names.
unsafe fn run_batch(s: &State, frames: &[u8], answers: *mut u8) -> Report {
    let n = &s.sizes;
    jumperloft1_batch(
        s.kinds, n.nodes, s.used, n.used, s.counts, n.counts, s.cells, n.cells, s.order, n.order, s.versions, n.versions,
        s.walk_numbers, n.walk_numbers, s.walk_nodes, n.walk_nodes, s.walk_indices, n.walk_indices,
        frames.as_ptr(), frames.len(), answers, ANSWER_SIZE * (frames.len() / FRAME_SIZE),
    )
}

#[no_mangle]
pub unsafe extern "C" fn plugin_run(lent: &State, party: u8, seed: u32, book: &mut Transcript) -> i32 {
    let mut w = Writer { seed: seed | 1, party, current: 0, frames: Vec::new() };
    for number in 0..BATCHES {
        if book.room - book.frames < BATCH_FRAMES {
            return -1;
        }
        w.write_batch(number);
        let count = w.frames.len() / FRAME_SIZE;
        let requests = book.requests.add(FRAME_SIZE * book.frames);
        requests.copy_from_nonoverlapping(w.frames.as_ptr(), w.frames.len());
        let r = run_batch(lent, &w.frames, book.answers.add(ANSWER_SIZE * book.frames));
        book.frames += count;
        if r.number != 0 || r.frames != count {
            return if r.number != 0 { r.number as i32 } else { -1 };
        }
    }
    0
}
