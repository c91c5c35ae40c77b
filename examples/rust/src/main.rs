//! Prints the extents of a qcow2 image's disk, as `qmeta map` does. Reads only the header and the
//! tables, so the image may be of any size.
//!
//! Usage: `map IMAGE`. Prints the extents that are known before a fault. The status is 1 after a
//! fault or an I/O error, and 2 for other arguments.

use std::env;
use std::error::Error;
use std::fs::File;
use std::io::{self, BufWriter, Write};
use std::os::unix::fs::FileExt;
use std::process::ExitCode;

use zaqulle::{Content, Extent, Fault, Header, header_bytes, l1_entry, l2_extents, read_header};

/// The largest number of entries in an L1 table.
const MOST_L1_ENTRIES: u32 = 4_194_304;

/// The largest offset where a table may end.
const GREATEST_END: u64 = 1 << 56;

/// Reads bytes from a file. Past its end they are zeros.
fn read_part(file: &File, offset: u64, length: usize) -> io::Result<Vec<u8>> {
    let mut bytes = vec![0; length];
    let mut filled = 0;
    while filled < length {
        match file.read_at(&mut bytes[filled..], offset + filled as u64)? {
            0 => break,
            count => filled += count,
        }
    }
    Ok(bytes)
}

/// Reads the header of an image.
fn header_of(file: &File) -> Result<Header, Box<dyn Error>> {
    let size = header_bytes(&read_part(file, 0, 104)?)?;
    Ok(read_header(&read_part(file, 0, size)?)?)
}

/// Reads the L1 table, and returns the host offset of each L2 table, or `None` if the entry names
/// none.
fn l2_offsets(file: &File, header: &Header) -> Result<Vec<Option<u64>>, Box<dyn Error>> {
    let length = 8 * u64::from(header.l1_entries());
    if header.l1_entries() > MOST_L1_ENTRIES {
        return Err(Fault::TableTooBig.into());
    }
    if header
        .l1_offset()
        .checked_add(length)
        .is_none_or(|end| end > GREATEST_END)
    {
        return Err(Fault::TablePlace.into());
    }
    let bytes = read_part(file, header.l1_offset(), length as usize)?;
    let mut offsets = Vec::with_capacity(bytes.len() / 8);
    for entry in bytes.chunks_exact(8) {
        let number = u64::from_be_bytes(entry.try_into()?);
        offsets.push(l1_entry(number, header)?.map(|table| table.offset));
    }
    Ok(offsets)
}

/// Whether an extent continues another one.
fn goes_on(next: &Extent, last: &Extent) -> bool {
    match (last.content, next.content) {
        (Content::Data(offset), Content::Data(next)) => next == offset + last.length,
        (Content::AllocatedZeros(offset), Content::AllocatedZeros(next)) => {
            next == offset + last.length
        }
        (last, next) => last == next,
    }
}

fn print(extent: &Extent, out: &mut impl Write) -> io::Result<()> {
    write!(out, "{:#x} {:#x} ", extent.start, extent.length)?;
    match extent.content {
        Content::Backing => writeln!(out, "backing"),
        Content::Data(offset) => writeln!(out, "data {offset:#x}"),
        Content::Zeros => writeln!(out, "zero"),
        Content::AllocatedZeros(offset) => writeln!(out, "zero {offset:#x}"),
        Content::Compressed => writeln!(out, "compressed"),
        _ => writeln!(out, "unknown"),
    }
}

/// Prints extents in order, joined if one continues another.
struct Printer<W> {
    out: W,
    last: Option<Extent>,
}

impl<W: Write> Printer<W> {
    /// Takes the next extent. Prints the last one, unless this one continues it.
    fn push(&mut self, extent: Extent) -> io::Result<()> {
        match &mut self.last {
            Some(last) if goes_on(&extent, last) => last.length += extent.length,
            _ => {
                self.print_last()?;
                self.last = Some(extent);
            }
        }
        Ok(())
    }

    /// Prints the last extent, which no other one continues.
    fn print_last(&mut self) -> io::Result<()> {
        self.last
            .take()
            .map_or(Ok(()), |last| print(&last, &mut self.out))
    }
}

/// Prints the extents of an image. Doesn't read L2 tables past the disk's end.
fn print_map(file: &File, out: &mut impl Write) -> Result<(), Box<dyn Error>> {
    let header = header_of(file)?;
    let size = header.size();
    let table_range = (header.cluster_size() * header.l2_entries()) as u64;
    let mut printer = Printer { out, last: None };
    let mut start = 0;
    for table in l2_offsets(file, &header)? {
        if start >= size {
            break;
        }
        let end = size.min(start.saturating_add(table_range));
        let extents = match table {
            Some(offset) => l2_extents(
                &read_part(file, offset, header.cluster_size())?,
                &header,
                start,
            )?,
            None => vec![Extent {
                start,
                length: end - start,
                content: Content::Backing,
            }],
        };
        for extent in extents.into_iter().filter(|extent| extent.start < end) {
            printer.push(Extent {
                length: extent.length.min(end - extent.start),
                ..extent
            })?;
        }
        start = end;
    }
    if start < size {
        printer.push(Extent {
            start,
            length: size - start,
            content: Content::Backing,
        })?;
    }
    Ok(printer.print_last()?)
}

fn main() -> ExitCode {
    let words: Vec<_> = env::args_os().skip(1).collect();
    let [path] = words.as_slice() else {
        eprintln!("usage: map IMAGE");
        return ExitCode::from(2);
    };
    let mut out = BufWriter::new(io::stdout().lock());
    let printed = File::open(path)
        .map_err(Into::into)
        .and_then(|file| print_map(&file, &mut out));
    match printed.and_then(|()| Ok(out.flush()?)) {
        Ok(()) => ExitCode::SUCCESS,
        Err(error) => {
            eprintln!("map: {error}");
            ExitCode::FAILURE
        }
    }
}
