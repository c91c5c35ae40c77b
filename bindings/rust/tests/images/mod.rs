//! Images in memory, written field by field. Each file of tests uses a part of this.
#![allow(dead_code)]

/// The cluster size of the images.
pub const CLUSTER: usize = 512;

/// The copied flag of an entry: its cluster has refcount 1.
pub const COPIED: u64 = 1 << 63;

/// Writes a number in `size` bytes at an offset, big-endian.
pub fn put(bytes: &mut [u8], place: usize, size: usize, number: u64) {
    bytes[place..place + size].copy_from_slice(&number.to_be_bytes()[8 - size..]);
}

/// An image of version 3 with clusters of 512 bytes. Its L1 table, of one entry, is in cluster 1,
/// its L2 table in cluster 2, its refcount table in cluster 3, and its refcount block, of 16-bit
/// refcounts, in cluster 4. The disk has as many guest clusters as the L2 table has entries.
pub fn image(l2_entries: &[u64]) -> Vec<u8> {
    let mut bytes = vec![0; 16 * CLUSTER];
    bytes[..4].copy_from_slice(b"QFI\xfb");
    put(&mut bytes, 4, 4, 3);
    put(&mut bytes, 20, 4, 9);
    put(&mut bytes, 24, 8, (64 * CLUSTER) as u64);
    put(&mut bytes, 36, 4, 1);
    put(&mut bytes, 40, 8, 0x200);
    put(&mut bytes, 48, 8, 0x600);
    put(&mut bytes, 56, 4, 1);
    put(&mut bytes, 96, 4, 4);
    put(&mut bytes, 100, 4, 104);
    put(&mut bytes, 0x200, 8, COPIED | 0x400);
    put(&mut bytes, 0x600, 8, 0x800);
    for (index, entry) in l2_entries.iter().enumerate() {
        put(&mut bytes, 0x400 + 8 * index, 8, *entry);
    }
    bytes
}
