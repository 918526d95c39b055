//! The device: codecs behind rings, the output stream whose blocks the pins hear, and the input stream where one is
//! recorded.
use crate::capturing::InputStream;
use crate::driver::answer;
use crate::graph::{Codec, Format, NODES};
use crate::schedule::Step;
use std::collections::VecDeque;

const RING: usize = 256;

/// What happened, which nobody reads here: a step of the device, or an access of the driver with the place and the
/// value that it had.
#[allow(dead_code)]
pub enum Entry {
    Step(Step),
    Begin,
    End,
    Read(u16, u32),
    Write(u16, u32),
    /// A piece of memory was written: its place and how many bytes it has, which stand among all that were carried.
    Piece(u32, u32),
}

/// What the link frames between two holes brought: first frames that missed their blocks, and then blocks.
pub struct Stretch {
    pub holes: u64,
    pub blocks: u64,
}

pub struct Device {
    codecs: Vec<Codec>,
    settings: Vec<Vec<u32>>,
    queues: Vec<VecDeque<u32>>,
    waiting: VecDeque<u32>,
    pub corb: [u32; RING],
    pub corb_written: usize,
    corb_read: usize,
    pub rirb: [u32; RING],
    pub rirb_written: usize,
    pub frames: u64,
    pub stream: Stream,
    pub input: Option<InputStream>,
    pub journal: Vec<Entry>,
    pub carried: Vec<u8>,
}

/// The output stream: its ring in memory, its FIFO, and what it carried. The bytes of blocks are kept once for all
/// pins.
pub struct Stream {
    pub runs: bool,
    pub ring: Vec<u8>,
    fetched: usize,
    fifo: VecDeque<u8>,
    fifo_size: usize,
    block: usize,
    cadence: Vec<u8>,
    frame: usize,
    pub sent: u64,
    pub bytes: Vec<u8>,
    pub stretches: Vec<Stretch>,
}

/// How many blocks are due in each link frame, until they come again.
pub fn cadence(rate: u32) -> Vec<u8> {
    match rate {
        8_000 => vec![1, 0, 0, 0, 0, 0],
        16_000 => vec![1, 0, 0],
        44_100 => {
            let groups = [12, 11, 11, 12, 11, 11, 12, 11, 11, 12, 11, 11, 11];
            let mut blocks = Vec::new();
            for frames in groups {
                blocks.resize(blocks.len() + frames, 1);
                blocks.push(0);
            }
            blocks
        }
        48_000 => vec![1],
        96_000 => vec![2],
        _ => vec![4],
    }
}

impl Stream {
    pub fn new(format: Format, ring: usize, fifo_size: usize) -> Stream {
        Stream {
            runs: false,
            ring: vec![0; ring],
            fetched: 0,
            fifo: VecDeque::with_capacity(fifo_size),
            fifo_size,
            block: format.block(),
            cadence: cadence(format.rate),
            frame: 0,
            sent: 0,
            bytes: Vec::new(),
            stretches: Vec::new(),
        }
    }

    fn fetch(&mut self, most: usize) {
        if !self.runs {
            return;
        }
        let mut left = most.min(self.fifo_size - self.fifo.len());
        while left > 0 {
            let piece = left.min(self.ring.len() - self.fetched);
            self.fifo.extend(&self.ring[self.fetched..self.fetched + piece]);
            self.fetched = (self.fetched + piece) % self.ring.len();
            left -= piece;
        }
    }

    fn frame(&mut self) {
        let blocks = usize::from(self.cadence[self.frame]);
        self.frame = (self.frame + 1) % self.cadence.len();
        if blocks == 0 {
            return;
        }
        let size = blocks * self.block;
        if self.fifo.len() < size {
            match self.stretches.last_mut() {
                Some(last) if last.blocks == 0 => last.holes += 1,
                _ => self.stretches.push(Stretch { holes: 1, blocks: 0 }),
            }
            return;
        }
        let (front, back) = self.fifo.as_slices();
        let first = size.min(front.len());
        self.bytes.extend_from_slice(&front[..first]);
        self.bytes.extend_from_slice(&back[..size - first]);
        self.fifo.drain(..size);
        self.sent += size as u64;
        match self.stretches.last_mut() {
            Some(last) => last.blocks += blocks as u64,
            None => self.stretches.push(Stretch {
                holes: 0,
                blocks: blocks as u64,
            }),
        }
    }
}

impl Device {
    pub fn new(codecs: &[Codec], stream: Stream) -> Device {
        Device {
            codecs: codecs.to_vec(),
            settings: vec![vec![0; 32 * NODES]; codecs.len()],
            queues: vec![VecDeque::new(); codecs.len()],
            waiting: VecDeque::new(),
            corb: [0; RING],
            corb_written: 0,
            corb_read: 0,
            rirb: [0; RING],
            rirb_written: 0,
            frames: 0,
            stream,
            input: None,
            journal: Vec::new(),
            carried: Vec::new(),
        }
    }

    fn place_of(&self, address: u8) -> Option<usize> {
        self.codecs.iter().position(|codec| codec.address == address)
    }

    pub fn corb(&mut self) {
        if self.corb_read == self.corb_written {
            return;
        }
        self.corb_read = (self.corb_read + 1) % RING;
        let word = self.corb[self.corb_read];
        if let Some(place) = self.place_of((word >> 28) as u8) {
            let told = answer(&self.codecs[place], &mut self.settings[place], word);
            self.queues[place].push_back(told);
        }
    }

    pub fn answer(&mut self, address: u8) {
        if let Some(place) = self.place_of(address) {
            if let Some(told) = self.queues[place].pop_front() {
                self.waiting.push_back(told);
            }
        }
    }

    pub fn lose(&mut self, address: u8) {
        if let Some(place) = self.place_of(address) {
            self.queues[place].pop_front();
        }
    }

    pub fn rirb(&mut self) {
        if let Some(told) = self.waiting.pop_front() {
            self.rirb_written = (self.rirb_written + 1) % RING;
            self.rirb[self.rirb_written] = told;
        }
    }

    pub fn fetch(&mut self, stream: u8, most: u32) {
        if stream == 1 {
            self.stream.fetch(most as usize);
        } else if let Some(input) = &mut self.input {
            input.store(most as usize);
        }
    }

    pub fn link(&mut self, frames: u32) {
        self.frames += u64::from(frames);
        if self.stream.runs {
            for _ in 0..frames {
                self.stream.frame();
            }
        }
        if let Some(input) = &mut self.input {
            for _ in 0..frames {
                input.frame();
            }
        }
    }
}
