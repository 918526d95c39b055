//! The text of plans and of a run.
use crate::device::Stream;
use crate::graph::{Codec, Format, Outcome, Plan};
use crate::playing::{Driver, Phase};
use std::io::{self, Write};

const DIGITS: &[u8; 16] = b"0123456789abcdef";

/// How many blocks of sound a line has.
const LINE_BLOCKS: usize = 16;

/// Appends bytes, each as two hexadecimal digits.
pub fn push_hex(page: &mut Vec<u8>, bytes: &[u8]) {
    let start = page.len();
    page.resize(start + 2 * bytes.len(), 0);
    for (digits, byte) in page[start..].chunks_exact_mut(2).zip(bytes) {
        digits[0] = DIGITS[usize::from(byte >> 4)];
        digits[1] = DIGITS[usize::from(byte & 15)];
    }
}

/// Writes the page where it is full.
pub fn turn<W: Write>(out: &mut W, page: &mut Vec<u8>) -> io::Result<()> {
    if page.len() >= 61_440 {
        out.write_all(page)?;
        page.clear();
    }
    Ok(())
}

/// The lines of the plan of a codec.
pub fn push_plan(page: &mut Vec<u8>, address: u8, plan: &Plan) -> io::Result<()> {
    for entry in &plan.pins {
        let pin = entry.pin;
        let pair = entry.pair;
        match &entry.outcome {
            Outcome::Route(hops, converter) => {
                write!(page, "route {address} {pin:02x} pair {pair} via")?;
                for hop in hops {
                    write!(page, " {:02x}.{}", hop.nid, hop.index)?;
                }
                writeln!(page, " {converter:02x}")?;
            }
            Outcome::Blocked => writeln!(page, "blocked {address} {pin:02x} pair {pair}")?,
            Outcome::NoPath => writeln!(page, "nopath {address} {pin:02x} pair {pair}")?,
        }
    }
    Ok(())
}

/// A line of sound that is begun: its blocks' bytes stand in the page, so many of them.
struct Begun {
    blocks: usize,
    quiet: u64,
}

/// Ends a line of sound or of quiet that is begun.
fn end_line(page: &mut Vec<u8>, begun: &mut Begun) -> io::Result<()> {
    if begun.blocks > 0 {
        page.push(b'\n');
        begun.blocks = 0;
    }
    if begun.quiet > 0 {
        writeln!(page, "quiet {}", begun.quiet)?;
        begun.quiet = 0;
    }
    Ok(())
}

/// What a pin heard that plays a pair of the blocks' channels, or silence.
fn write_pin<W: Write>(
    out: &mut W,
    page: &mut Vec<u8>,
    stream: &Stream,
    format: Format,
    pair: Option<u8>,
) -> io::Result<()> {
    let (block, two) = (format.block(), 2 * format.container());
    let mut rest = &stream.bytes[..];
    let mut begun = Begun { blocks: 0, quiet: 0 };
    for stretch in &stream.stretches {
        if stretch.holes > 0 {
            end_line(page, &mut begun)?;
            writeln!(page, "hole {}", stretch.holes)?;
        }
        let (mut heard, more) = rest.split_at(stretch.blocks as usize * block);
        rest = more;
        let Some(pair) = pair else {
            begun.quiet += stretch.blocks;
            continue;
        };
        while !heard.is_empty() {
            if begun.blocks == 0 {
                page.extend_from_slice(b"sound ");
            }
            let blocks = (LINE_BLOCKS - begun.blocks).min(heard.len() / block);
            let (line, later) = heard.split_at(blocks * block);
            heard = later;
            if block == two {
                push_hex(page, line);
            } else {
                for one in line.chunks_exact(block) {
                    push_hex(page, &one[two * usize::from(pair)..][..two]);
                }
            }
            begun.blocks += blocks;
            if begun.blocks == LINE_BLOCKS {
                end_line(page, &mut begun)?;
                turn(out, page)?;
            }
        }
    }
    end_line(page, &mut begun)
}

/// The last line of a run, and the status.
fn push_last(
    page: &mut Vec<u8>,
    driver: &Driver,
    commands: u32,
    total: u64,
    block: u64,
    plays: bool,
) -> io::Result<u8> {
    match driver.phase {
        Phase::Ready if !plays => writeln!(page, "set up {commands}").map(|()| 0),
        Phase::Drained => writeln!(page, "played {total}").map(|()| 0),
        Phase::Late { from, to } => writeln!(page, "late {from} {to} {}", driver.limit).map(|()| 10),
        Phase::Playing => {
            let written = driver.used() / block;
            let heard = driver.heard() / block;
            writeln!(
                page,
                "schedule ended: frames {written} written {heard} heard of {total}"
            )
            .map(|()| 11)
        }
        // how many there would be it does not know
        _ => writeln!(page, "schedule ended: commands {commands}").map(|()| 11),
    }
}

/// The text of a run of the driver.
pub fn write_run<W: Write>(
    out: &mut W,
    codecs: &[Codec],
    plans: &[Plan],
    driver: &Driver,
    stream: &Stream,
    total: u64,
    format: Format,
    plays: bool,
) -> io::Result<u8> {
    let mut page = Vec::with_capacity(65_536);
    for (codec, plan) in codecs.iter().zip(plans) {
        push_plan(&mut page, codec.address, plan)?;
    }
    for run in &driver.runs {
        writeln!(
            page,
            "run {} {} {} {} {}",
            run.at, run.clock, run.clock, run.budget, run.written
        )?;
        turn(out, &mut page)?;
    }
    for silence in &driver.silences {
        writeln!(page, "silence {} {}", silence.start, silence.end)?;
        turn(out, &mut page)?;
    }
    if plays {
        for (codec, plan) in codecs.iter().zip(plans) {
            for entry in &plan.pins {
                writeln!(page, "pin {} {:02x}", codec.address, entry.pin)?;
                let pair = match entry.outcome {
                    Outcome::Route(..) => Some(entry.pair),
                    _ => None,
                };
                write_pin(out, &mut page, stream, format, pair)?;
            }
        }
    }
    let status = push_last(
        &mut page,
        driver,
        driver.bring_up.sent,
        total,
        format.block() as u64,
        plays,
    )?;
    out.write_all(&page)?;
    Ok(status)
}
