//! The driver over the device: reset, bring-up, and then the sound by runs.
use crate::capturing::Recorder;
use crate::device::{Device, Entry};
use crate::driver::BringUp;
use crate::schedule::{Line, Part, Step};
use std::ops::Range;

/// Places of registers.
const CORBWP: u16 = 0x48;
const RIRBWP: u16 = 0x58;
pub const RIRBSTS: u16 = 0x5D;
pub const WALCLK: u16 = 0x30;
pub const LPIB: u16 = 0x84;

pub struct Run {
    pub at: u64,
    pub clock: u64,
    pub budget: u64,
    pub written: u64,
}

pub struct Span {
    pub start: u64,
    pub end: u64,
}

/// The bytes of a block, how many link frames may pass from run to run, and how far past the link silence is taken back
/// at most: what the FIFO holds, in whole blocks, and what a quarter of those link frames may send.
pub struct Pace {
    pub block: u64,
    pub limit: u64,
    pub ahead: u64,
}

/// How far the driver has come.
#[derive(Clone, Copy, PartialEq)]
pub enum Phase {
    Off,
    Reset,
    Commands,
    Ready,
    Playing,
    Drained,
    Late { from: u64, to: u64 },
}

pub struct Driver {
    pub phase: Phase,
    pub bring_up: BringUp,
    /// The bytes of the sound; none for a walk.
    sound: Vec<u8>,
    plays: bool,
    /// Where it records.
    pub recorder: Option<Recorder>,
    block: u64,
    pub limit: u64,
    /// How far past the link silence is taken back at most.
    ahead: u64,
    rirb_read: usize,
    used: usize,
    reach: u64,
    sound_end: u64,
    at: u64,
    from: u64,
    pub runs: Vec<Run>,
    pub silences: Vec<Span>,
}

impl Driver {
    pub fn new(bring_up: BringUp, sound: Vec<u8>, plays: bool, pace: Pace) -> Driver {
        Driver {
            phase: Phase::Off,
            bring_up,
            sound,
            plays,
            recorder: None,
            block: pace.block,
            limit: pace.limit,
            ahead: pace.ahead,
            rirb_read: 0,
            used: 0,
            reach: 0,
            sound_end: 0,
            at: 0,
            from: 0,
            runs: Vec::new(),
            silences: Vec::new(),
        }
    }

    pub fn call(&mut self, device: &mut Device, addresses: &[u8], budget: u64) {
        match self.phase {
            Phase::Off => self.phase = Phase::Reset,
            Phase::Reset => {
                if device.frames >= 25 {
                    self.bring_up.begin(addresses);
                    self.phase = Phase::Commands;
                }
            }
            Phase::Commands => self.command(device),
            Phase::Ready | Phase::Playing if self.plays => self.run(device, budget),
            Phase::Ready | Phase::Playing => self.record(device),
            _ => {}
        }
    }

    fn record(&mut self, device: &mut Device) {
        if let Some(recorder) = &mut self.recorder {
            self.phase = recorder.run(device, self.phase == Phase::Playing);
        }
    }

    fn command(&mut self, device: &mut Device) {
        device
            .journal
            .push(Entry::Read(WALCLK, 500 * device.frames as u32));
        device.journal.push(Entry::Read(RIRBSTS, 0));
        if self.bring_up.waits() {
            if self.rirb_read == device.rirb_written {
                return;
            }
            device
                .journal
                .push(Entry::Read(RIRBWP, device.rirb_written as u32));
            self.rirb_read = (self.rirb_read + 1) % device.rirb.len();
            let answer = device.rirb[self.rirb_read];
            note_piece(device, self.rirb_read, &answer.to_le_bytes());
            device.journal.push(Entry::Write(RIRBSTS, 1));
            self.bring_up.take(answer);
        }
        if self.bring_up.is_done() {
            self.phase = Phase::Ready;
            return;
        }
        if let Some(word) = self.bring_up.next_command() {
            device.corb_written = (device.corb_written + 1) % device.corb.len();
            device.corb[device.corb_written] = word;
            note_piece(device, device.corb_written, &word.to_le_bytes());
            device
                .journal
                .push(Entry::Write(CORBWP, device.corb_written as u32));
        }
    }

    /// A run of the ring: the line gets longer up to one ring ahead of the link, first by sound and then by silence. Where
    /// it ends in silence, sound takes that back as near to the link as it may.
    fn run(&mut self, device: &mut Device, budget: u64) {
        let clock = 500 * device.frames;
        let ring = device.stream.ring.len() as u64;
        let started = self.phase == Phase::Playing;
        let at = if started {
            let lpib = device.stream.sent % ring;
            self.at + (lpib + (ring - self.at % ring)) % ring
        } else {
            0
        };
        device.journal.push(Entry::Read(RIRBSTS, 0));
        device.journal.push(Entry::Read(WALCLK, clock as u32));
        device.journal.push(Entry::Read(LPIB, (at % ring) as u32));
        let cut = self.reach.min(self.sound_end.max(at + self.ahead));
        let room = at + ring - cut;
        let left = (self.sound.len() - self.used) as u64;
        let sound = budget.min(room).min(left) / self.block * self.block;
        let start = if started && sound > 0 { cut } else { self.reach };
        let quiet = self.reach.max(start + sound);
        let from = self.used;
        self.write(device, start, from..from + sound as usize);
        self.fill(device, quiet, (at + ring - quiet) as usize);
        device.journal.push(Entry::Read(WALCLK, clock as u32));
        if started && clock - self.from > 500 * self.limit {
            self.phase = Phase::Late {
                from: self.from,
                to: clock,
            };
            device.stream.runs = false;
            return;
        }
        self.take_back(start);
        if sound > 0 {
            self.sound_end = start + sound;
        }
        if at + ring > start + sound {
            self.silence(start + sound, at + ring);
        }
        self.reach = at + ring;
        self.used += sound as usize;
        self.at = at;
        self.from = clock;
        self.runs.push(Run {
            at,
            clock,
            budget,
            written: sound,
        });
        device.stream.runs = true;
        self.phase = Phase::Playing;
        if started && self.used == self.sound.len() && self.sound_end <= at {
            self.phase = Phase::Drained;
            device.stream.runs = false;
        }
    }

    /// Cuts the silence from a position on off the line.
    fn take_back(&mut self, start: u64) {
        if let Some(last) = self.silences.last_mut() {
            last.end = last.end.min(start);
            if last.end <= last.start {
                self.silences.pop();
            }
        }
    }

    fn silence(&mut self, start: u64, end: u64) {
        match self.silences.last_mut() {
            Some(last) if last.end == start => last.end = end,
            _ => self.silences.push(Span { start, end }),
        }
    }

    /// Writes bytes of the sound from a position of the line on.
    fn write(&mut self, device: &mut Device, start: u64, mut sound: Range<usize>) {
        let ring = &mut device.stream.ring;
        let mut place = (start % ring.len() as u64) as usize;
        while !sound.is_empty() {
            let piece = sound.len().min(ring.len() - place);
            let bytes = &self.sound[sound.start..sound.start + piece];
            ring[place..place + piece].copy_from_slice(bytes);
            device.journal.push(Entry::Piece(place as u32, piece as u32));
            device.carried.extend_from_slice(bytes);
            place = (place + piece) % ring.len();
            sound.start += piece;
        }
    }

    /// Writes so many zeros from a position of the line on.
    fn fill(&mut self, device: &mut Device, start: u64, mut left: usize) {
        let ring = &mut device.stream.ring;
        let mut place = (start % ring.len() as u64) as usize;
        while left > 0 {
            let piece = left.min(ring.len() - place);
            ring[place..place + piece].fill(0);
            device.journal.push(Entry::Piece(place as u32, piece as u32));
            device.carried.resize(device.carried.len() + piece, 0);
            place = (place + piece) % ring.len();
            left -= piece;
        }
    }

    /// How many bytes of sound were written.
    pub fn used(&self) -> u64 {
        self.used as u64
    }

    /// How many of them stand before the last position of the link that was recorded.
    pub fn heard(&self) -> u64 {
        let silent = |span: &Span| span.end.min(self.at) - span.start.min(self.at);
        self.at - self.silences.iter().map(silent).sum::<u64>()
    }
}

/// Notes that a piece of memory was written or read.
fn note_piece(device: &mut Device, place: usize, bytes: &[u8]) {
    device
        .journal
        .push(Entry::Piece(place as u32, bytes.len() as u32));
    device.carried.extend_from_slice(bytes);
}

fn make(device: &mut Device, step: Step) {
    device.journal.push(Entry::Step(step));
    match step {
        Step::Corb => device.corb(),
        Step::Rirb => device.rirb(),
        Step::Answer(address) => device.answer(address),
        Step::Lose(address) => device.lose(address),
        Step::Fetch(stream, most) => device.fetch(stream, most),
        Step::Link(frames) => device.link(frames),
        Step::Plug => {}
    }
}

/// Passes a schedule, and then ends the driver's work.
pub fn pass(driver: &mut Driver, device: &mut Device, addresses: &[u8], parts: &[Part]) {
    for part in parts {
        for _ in 0..part.times {
            for line in &part.lines {
                match line {
                    Line::Step(step) => make(device, *step),
                    Line::Run(budget, steps) => {
                        device.journal.push(Entry::Begin);
                        driver.call(device, addresses, *budget);
                        for step in steps {
                            make(device, *step);
                        }
                        device.journal.push(Entry::End);
                    }
                }
            }
        }
    }
    if driver.phase == Phase::Playing && driver.plays {
        driver.run(device, 0);
    } else if driver.phase == Phase::Playing {
        driver.record(device);
    } else if driver.phase == Phase::Commands {
        driver.command(device);
    }
}
