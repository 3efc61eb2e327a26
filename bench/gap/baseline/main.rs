//! A plain, safe gap buffer of bytes, and the same measurements as the Rattle program makes.
//! Each line names what was timed and gives nanoseconds for the whole of it.
use std::hint::black_box;
use std::time::Instant;

const BYTES: usize = 1 << 20;
const RUN: usize = 1 << 16;
const RUNS: usize = 64;
const ROUNDS: usize = 9;

/// The left list is `data[..start]`, and the right one `data[end..]`.
struct PlainGap {
    data: Vec<u8>,
    start: usize,
    end: usize,
}

impl PlainGap {
    fn new() -> Self {
        PlainGap { data: Vec::new(), start: 0, end: 0 }
    }

    fn reserve(&mut self, n: usize) {
        if n <= self.end - self.start {
            return;
        }
        let right = self.data.len() - self.end;
        let wanted = self.start + right + n;
        let capacity = wanted.max(2 * self.data.len());
        let mut data = vec![0; capacity];
        data[..self.start].copy_from_slice(&self.data[..self.start]);
        data[capacity - right..].copy_from_slice(&self.data[self.end..]);
        self.end = capacity - right;
        self.data = data;
    }

    fn push_left(&mut self, x: u8) {
        assert!(self.start < self.end);
        self.data[self.start] = x;
        self.start += 1;
    }

    fn push_right(&mut self, x: u8) {
        assert!(self.start < self.end);
        self.end -= 1;
        self.data[self.end] = x;
    }

    fn put_left(&mut self, items: &[u8]) {
        assert!(items.len() <= self.end - self.start);
        self.data[self.start..self.start + items.len()].copy_from_slice(items);
        self.start += items.len();
    }

    fn pop_left(&mut self) -> Option<u8> {
        self.start = self.start.checked_sub(1)?;
        Some(self.data[self.start])
    }

    fn pop_right(&mut self) -> Option<u8> {
        let x = *self.data.get(self.end)?;
        self.end += 1;
        Some(x)
    }

    fn shift_left(&mut self, n: usize) {
        self.data.copy_within(self.end..self.end + n, self.start);
        self.start += n;
        self.end += n;
    }

    fn shift_right(&mut self, n: usize) {
        self.start -= n;
        self.end -= n;
        self.data.copy_within(self.start..self.start + n, self.end);
    }
}

// One call for one byte, and not inlined: what is timed is a byte at a time, as a program that
// does other work between two bytes sees it.
#[inline(never)]
fn push_one_left(buf: &mut PlainGap, x: u8) {
    buf.push_left(x);
}

#[inline(never)]
fn push_one_right(buf: &mut PlainGap, x: u8) {
    buf.push_right(x);
}

#[inline(never)]
fn pop_one_left(buf: &mut PlainGap) -> Option<u8> {
    buf.pop_left()
}

#[inline(never)]
fn pop_one_right(buf: &mut PlainGap) -> Option<u8> {
    buf.pop_right()
}

#[inline(never)]
fn shift_one_left(buf: &mut PlainGap) {
    buf.shift_left(1);
}

#[inline(never)]
fn shift_one_right(buf: &mut PlainGap) {
    buf.shift_right(1);
}

fn push_left(buf: &mut PlainGap, count: usize) {
    for i in 0..count {
        push_one_left(buf, (i & 0xff) as u8);
    }
}

fn push_right(buf: &mut PlainGap, count: usize) {
    for i in 0..count {
        push_one_right(buf, (i & 0xff) as u8);
    }
}

fn pop_left(buf: &mut PlainGap, count: usize) -> u64 {
    let mut sum: u64 = 0;
    for _ in 0..count {
        if let Some(x) = pop_one_left(buf) {
            sum = sum.wrapping_add(u64::from(x));
        }
    }
    sum
}

fn pop_right(buf: &mut PlainGap, count: usize) -> u64 {
    let mut sum: u64 = 0;
    for _ in 0..count {
        if let Some(x) = pop_one_right(buf) {
            sum = sum.wrapping_add(u64::from(x));
        }
    }
    sum
}

fn cross_bytes(buf: &mut PlainGap, count: usize) {
    for _ in 0..count {
        shift_one_left(buf);
    }
    for _ in 0..count {
        shift_one_right(buf);
    }
}

#[inline(never)]
fn cross_runs(buf: &mut PlainGap, len: usize, count: usize) {
    for _ in 0..count {
        buf.shift_left(len);
        buf.shift_right(len);
    }
}

#[inline(never)]
fn grow(buf: &mut PlainGap, chunk: &[u8], count: usize) {
    for _ in 0..count {
        buf.reserve(chunk.len());
        buf.put_left(chunk);
    }
}

#[inline(never)]
fn bare_copies(to: &mut [u8], from: &mut [u8], count: usize) {
    for _ in 0..count {
        to.copy_from_slice(from);
        from.copy_from_slice(to);
    }
}

fn filled(count: usize, gap: usize) -> PlainGap {
    let mut buf = PlainGap::new();
    buf.reserve(count);
    push_right(&mut buf, count);
    buf.reserve(gap);
    buf
}

fn report(name: &str, start: Instant) {
    println!("{name} {}", start.elapsed().as_nanos());
}

fn ends() -> u64 {
    let mut sum: u64 = 0;
    let mut buf = PlainGap::new();
    buf.reserve(BYTES);
    for _ in 0..ROUNDS {
        let start = Instant::now();
        push_left(&mut buf, BYTES);
        report("push_left", start);
        let start = Instant::now();
        sum = sum.wrapping_add(pop_left(&mut buf, BYTES));
        report("pop_left", start);
        let start = Instant::now();
        push_right(&mut buf, BYTES);
        report("push_right", start);
        let start = Instant::now();
        sum = sum.wrapping_add(pop_right(&mut buf, BYTES));
        report("pop_right", start);
    }
    sum
}

fn crossings() -> u64 {
    let mut wide = filled(BYTES, BYTES);
    let mut tight = filled(BYTES, 0);
    tight.pop_right();
    let (mut from, mut to) = (vec![3; RUN], vec![0; RUN]);
    for _ in 0..ROUNDS {
        let start = Instant::now();
        cross_bytes(black_box(&mut wide), BYTES);
        report("cross_bytes", start);
        let start = Instant::now();
        cross_runs(black_box(&mut wide), RUN, RUNS);
        report("cross_runs", start);
        let start = Instant::now();
        cross_runs(black_box(&mut tight), RUN, RUNS);
        report("cross_runs_tight", start);
        let start = Instant::now();
        bare_copies(black_box(&mut to), black_box(&mut from), RUNS);
        report("bare_copies", start);
    }
    u64::from(wide.data[wide.end]) + u64::from(tight.data[tight.end]) + u64::from(to[0])
}

fn growing() -> u64 {
    let chunk = vec![9; 4096];
    let mut sum = 0;
    for _ in 0..ROUNDS {
        let start = Instant::now();
        let mut buf = PlainGap::new();
        grow(&mut buf, &chunk, 1 << 14);
        sum += buf.start as u64;
        drop(buf);
        report("grow", start);
    }
    sum
}

fn main() {
    println!("sum {}", ends() + crossings() + growing());
}
