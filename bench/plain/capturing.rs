//! Recording: the input stream, the runs that read its ring, and the text of a capture.
use crate::device::{cadence, Device, Entry};
use crate::graph::{Format, Hop};
use crate::playing::{Phase, Span, LPIB, RIRBSTS, WALCLK};
use crate::report::{push_hex, turn};
use std::collections::VecDeque;
use std::io::{self, Write};

/// How many bytes of the file a line has.
const LINE_BYTES: usize = 48;

/// The input stream: the sound that its pin is given, its FIFO, and its ring in memory. Silence comes behind the sound.
pub struct InputStream {
    pub runs: bool,
    ring: Vec<u8>,
    stored: usize,
    fifo: VecDeque<u8>,
    fifo_size: usize,
    block: usize,
    cadence: Vec<u8>,
    frame: usize,
    given: Vec<u8>,
    /// How many blocks came.
    came: u64,
    /// How many bytes were taken.
    taken: u64,
    /// The blocks that were dropped.
    overruns: Vec<Span>,
}

impl InputStream {
    pub fn new(format: Format, ring: usize, fifo_size: usize, given: Vec<u8>) -> InputStream {
        InputStream {
            runs: false,
            ring: vec![0; ring],
            stored: 0,
            fifo: VecDeque::with_capacity(fifo_size),
            fifo_size,
            block: format.block(),
            cadence: cadence(format.rate),
            frame: 0,
            given,
            came: 0,
            taken: 0,
            overruns: Vec::new(),
        }
    }

    pub fn store(&mut self, most: usize) {
        if !self.runs {
            return;
        }
        let mut left = most.min(self.fifo.len());
        while left > 0 {
            let piece = left.min(self.ring.len() - self.stored);
            let places = &mut self.ring[self.stored..self.stored + piece];
            for (place, byte) in places.iter_mut().zip(self.fifo.drain(..piece)) {
                *place = byte;
            }
            self.stored = (self.stored + piece) % self.ring.len();
            left -= piece;
        }
    }

    pub fn frame(&mut self) {
        if !self.runs {
            return;
        }
        let blocks = self.cadence[self.frame];
        self.frame = (self.frame + 1) % self.cadence.len();
        for _ in 0..blocks {
            let number = self.came;
            self.came += 1;
            if self.fifo.len() + self.block > self.fifo_size {
                match self.overruns.last_mut() {
                    Some(last) if last.end == number => last.end = number + 1,
                    _ => self.overruns.push(Span {
                        start: number,
                        end: number + 1,
                    }),
                }
                continue;
            }
            let start = number as usize * self.block;
            match self.given.get(start..start + self.block) {
                Some(block) => self.fifo.extend(block),
                None => self.fifo.resize(self.fifo.len() + self.block, 0),
            }
            self.taken += self.block as u64;
        }
    }
}

struct RecordedRun {
    at: u64,
    clock: u64,
    read: u64,
}

/// The runs of a ring that the input stream fills.
pub struct Recorder {
    /// How many bytes are to be recorded.
    total: u64,
    /// The bytes of the FIFO's whole blocks.
    behind: u64,
    limit: u64,
    at: u64,
    from: u64,
    runs: Vec<RecordedRun>,
    bytes: Vec<u8>,
}

impl Recorder {
    pub fn new(total: u64, behind: u64, limit: u64) -> Recorder {
        Recorder {
            total,
            behind,
            limit,
            at: 0,
            from: 0,
            runs: Vec::new(),
            bytes: Vec::with_capacity(total as usize),
        }
    }

    /// The first run sets the stream going; a later one reads what certainly left the FIFO.
    pub fn run(&mut self, device: &mut Device, started: bool) -> Phase {
        let clock = 500 * device.frames;
        let Some(input) = &mut device.input else {
            return Phase::Drained;
        };
        let ring = input.ring.len() as u64;
        let read = self.bytes.len() as u64;
        let mut at = 0;
        let mut upto = read;
        device.journal.push(Entry::Read(RIRBSTS, 0));
        device.journal.push(Entry::Read(WALCLK, clock as u32));
        if started {
            let lpib = input.taken % ring;
            at = self.at + (lpib + (ring - self.at % ring)) % ring;
            device.journal.push(Entry::Read(LPIB, lpib as u32));
            upto = read.max(at.saturating_sub(self.behind)).min(self.total);
        }
        let mut place = (read % ring) as usize;
        let mut left = (upto - read) as usize;
        while left > 0 {
            let piece = left.min(input.ring.len() - place);
            let bytes = &input.ring[place..place + piece];
            self.bytes.extend_from_slice(bytes);
            device.journal.push(Entry::Piece(place as u32, piece as u32));
            device.carried.extend_from_slice(bytes);
            place = (place + piece) % input.ring.len();
            left -= piece;
        }
        device.journal.push(Entry::Read(WALCLK, clock as u32));
        if started && clock - self.from > 500 * self.limit {
            self.bytes.truncate(read as usize);
            input.runs = false;
            return Phase::Late {
                from: self.from,
                to: clock,
            };
        }
        self.runs.push(RecordedRun {
            at,
            clock,
            read: upto - read,
        });
        self.at = at;
        self.from = clock;
        input.runs = !(started && upto == self.total);
        if input.runs {
            Phase::Playing
        } else {
            Phase::Drained
        }
    }
}

/// The bytes of a WAV file before its samples.
fn head(format: Format, size: u32) -> Vec<u8> {
    let sample = format.bits / 8;
    let frame = u32::from(format.channels) * sample;
    let mut bytes = Vec::with_capacity(44);
    bytes.extend_from_slice(b"RIFF");
    bytes.extend_from_slice(&(36 + size).to_le_bytes());
    bytes.extend_from_slice(b"WAVEfmt ");
    bytes.extend_from_slice(&16u32.to_le_bytes());
    bytes.extend_from_slice(&1u16.to_le_bytes());
    bytes.extend_from_slice(&u16::from(format.channels).to_le_bytes());
    bytes.extend_from_slice(&format.rate.to_le_bytes());
    bytes.extend_from_slice(&(format.rate * frame).to_le_bytes());
    bytes.extend_from_slice(&(frame as u16).to_le_bytes());
    bytes.extend_from_slice(&(format.bits as u16).to_le_bytes());
    bytes.extend_from_slice(b"data");
    bytes.extend_from_slice(&size.to_le_bytes());
    bytes
}

/// The bytes of a block of a ring as they stand in a file.
fn file(format: Format, recorded: &[u8]) -> Vec<u8> {
    let size = recorded.len() / format.container() * (format.bits as usize / 8);
    let mut bytes = head(format, size as u32);
    bytes.reserve(size);
    if format.bits == 24 {
        for sample in recorded.chunks_exact(4) {
            bytes.extend_from_slice(&sample[1..]);
        }
    } else {
        bytes.extend_from_slice(recorded);
    }
    bytes
}

/// What is recorded: the codec, the path from its converter on, and the pin.
pub struct Input {
    pub address: u8,
    pub hops: Vec<Hop>,
    pub pin: u8,
}

/// The text of a capture, and the status.
pub fn write_capture<W: Write>(
    out: &mut W,
    input: &Input,
    device: &Device,
    recorder: &Recorder,
    phase: Phase,
    format: Format,
    commands: u32,
) -> io::Result<u8> {
    let mut page = Vec::with_capacity(65_536);
    write!(page, "input {} via ", input.address)?;
    for hop in &input.hops {
        write!(page, "{:02x}.{} ", hop.nid, hop.index)?;
    }
    writeln!(page, "{:02x}", input.pin)?;
    for run in &recorder.runs {
        writeln!(page, "run {} {} {} {}", run.at, run.clock, run.clock, run.read)?;
        turn(out, &mut page)?;
    }
    for overrun in device.input.iter().flat_map(|input| &input.overruns) {
        writeln!(page, "overrun {} {}", overrun.start, overrun.end - overrun.start)?;
        turn(out, &mut page)?;
    }
    for line in file(format, &recorder.bytes).chunks(LINE_BYTES) {
        page.extend_from_slice(b"wav ");
        push_hex(&mut page, line);
        page.push(b'\n');
        turn(out, &mut page)?;
    }
    let frames = |bytes: u64| bytes / format.block() as u64;
    let total = frames(recorder.total);
    let status = match phase {
        Phase::Drained => {
            writeln!(page, "captured {total}")?;
            0
        }
        Phase::Late { from, to } => {
            writeln!(page, "late {from} {to} {}", recorder.limit)?;
            10
        }
        Phase::Playing => {
            let read = frames(recorder.bytes.len() as u64);
            writeln!(page, "schedule ended: frames {read} of {total}")?;
            11
        }
        // how many there would be it does not know
        _ => {
            writeln!(page, "schedule ended: commands {commands}")?;
            11
        }
    };
    out.write_all(&page)?;
    Ok(status)
}
