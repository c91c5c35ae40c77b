//! Does the work of `qcow2_benchmark` in plain Rust. It reads a table from an image in memory entry by entry. It writes
//! it as that does, through an array of 4096 bytes that it copies to the image (`write`), and by one byte-swapping copy
//! straight into the image (`copy`). Prints the least time of a round in nanoseconds.

use std::hint::black_box;
use std::time::Instant;

#[derive(Clone, Copy)]
struct Entry(u64);

#[derive(Debug)]
enum Fault {
    Reserved,
    Unaligned,
}

impl Entry {
    fn try_from_plain(value: u64, cluster_bits: u32) -> Result<Entry, Fault> {
        if value >> 62 & 1 == 1 {
            if value >> 63 == 1 || value & ((1 << (70 - cluster_bits)) - 1) >= 1 << 56 {
                return Err(Fault::Reserved);
            }
            return Ok(Entry(value));
        }
        if value & 0x3f00_0000_0000_01fe != 0 {
            return Err(Fault::Reserved);
        }
        if value & 0x00ff_ffff_ffff_fe00 & ((1 << cluster_bits) - 1) != 0 {
            return Err(Fault::Unaligned);
        }
        Ok(Entry(value))
    }
}

fn load(image: &[u8], offset: usize, count: usize, cluster_bits: u32) -> Result<Vec<Entry>, Fault> {
    let bytes = image[offset..offset + 8 * count].to_vec();
    let mut list = Vec::with_capacity(count);
    for chunk in bytes.chunks_exact(8) {
        let number = u64::from_be_bytes(chunk.try_into().unwrap());
        list.push(Entry::try_from_plain(number, cluster_bits)?);
    }
    Ok(list)
}

fn copy(bytes: &mut [u8], entries: &[Entry]) {
    for (chunk, entry) in bytes.chunks_exact_mut(8).zip(entries) {
        chunk.copy_from_slice(&entry.0.to_be_bytes());
    }
}

// A storage's write is a call that the compiler doesn't look into.
#[inline(never)]
fn write_storage(image: &mut [u8], offset: usize, bytes: &[u8]) {
    image[offset..offset + bytes.len()].copy_from_slice(bytes);
}

fn write(image: &mut [u8], offset: usize, entries: &[Entry]) {
    let mut buffer = [0u8; 4096];
    for (piece, entries) in entries.chunks(512).enumerate() {
        let bytes = &mut buffer[..8 * entries.len()];
        copy(bytes, entries);
        write_storage(image, offset + 4096 * piece, bytes);
    }
}

fn number(index: u64, mixed: bool) -> u64 {
    let data = (1 << 63) + (index % (1 << 20) << 21);
    if !mixed {
        return data;
    }
    match index.wrapping_mul(0x9e37_79b9_7f4a_7c15) >> 62 {
        0 => data,
        1 => 1,
        2 => (1 << 62) + index % (1 << 20) * 512,
        _ => 0,
    }
}

fn measure(name: &str, mixed: bool, cluster_bits: u32, rounds: u32) {
    let cluster_size = 1usize << cluster_bits;
    let count = cluster_size / 8;
    let mut image = vec![0u8; cluster_size];
    for index in 0..count {
        image.extend_from_slice(&number(index as u64, mixed).to_be_bytes());
    }
    let mut loaded = u128::MAX;
    let mut written = u128::MAX;
    let mut copied = u128::MAX;
    for _ in 0..rounds {
        let start = Instant::now();
        let table = black_box(load(black_box(&image), cluster_size, count, cluster_bits).unwrap());
        let middle = Instant::now();
        write(black_box(&mut image), cluster_size, &table);
        let end = Instant::now();
        copy(&mut black_box(&mut image)[cluster_size..], &table);
        let last = Instant::now();
        loaded = loaded.min((middle - start).as_nanos());
        written = written.min((end - middle).as_nanos());
        copied = copied.min((last - end).as_nanos());
    }
    eprintln!("load-{name} {count} {loaded}");
    eprintln!("write-{name} {count} {written}");
    eprintln!("copy-{name} {count} {copied}");
}

fn main() {
    let rounds = std::env::args().nth(1).and_then(|word| word.parse().ok()).unwrap_or(1);
    for (name, mixed) in [("data", false), ("mixed", true)] {
        for cluster_bits in [16, 21] {
            measure(name, mixed, cluster_bits, rounds);
        }
    }
}
