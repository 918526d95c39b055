//! The codec, the sound and the schedule that are made of a number, and the line that tells how they were played.
use crate::device::Stream;
use crate::playing::{Driver, Phase};
use crate::schedule::{Line, Part, Step};
use std::io::{self, Write};

/// The codec: a converter, a mixer and a pin.
pub const CODEC: &str = "[[codec]]
address = 0
vendor = 0x10EC0889
node = [
    {nid = 0x02, caps = 0x1},
    {nid = 0x0C, caps = 0x20010B, amp_in = 0x80000000, list = [0x02, 0x0B]},
    {nid = 0x14, caps = 0x40010D, amp_out = 0x80000000, pin_caps = 0x10, default = 0x01014010, list = [0x0C]},
]
";

pub fn frames(number: u16) -> u32 {
    1_000 + u32::from(number) % 50_000
}

/// The samples of both channels.
pub fn sound(number: u16) -> Vec<u8> {
    let sample = |factor: u32, frame: u32| ((factor * frame + u32::from(number)) as u16).to_le_bytes();
    (0..frames(number))
        .flat_map(|frame| [sample(7, frame), sample(13, frame)])
        .flatten()
        .collect()
}

fn run(budget: u64) -> Line {
    Line::Run(budget, Vec::new())
}

/// The reset, 44 commands, and turns until the sound has ended.
pub fn schedule(number: u16) -> Vec<Part> {
    let part = |times, lines| Part { times, lines };
    let command = [Step::Corb, Step::Answer(0), Step::Rirb].map(Line::Step);
    let mut turns = vec![run(0)];
    let (mut left, mut draw) = (i64::from(frames(number)), u64::from(number));
    while left > 0 {
        draw = (1_103_515_245 * draw + 12_345) % (1 << 31);
        let link = 16 + (draw % 32) as u32;
        turns.extend([run(100_000), Line::Step(Step::Fetch(1, 192)), Line::Step(Step::Link(link))]);
        left -= i64::from(link);
    }
    turns.push(run(100_000));
    vec![
        part(1, vec![run(0), Line::Step(Step::Link(25)), run(0)]),
        part(44, std::iter::once(run(0)).chain(command).collect()),
        part(1, turns),
    ]
}

/// The line, and the status with which the program ends.
pub fn write_line<W: Write>(out: &mut W, number: u16, driver: &Driver, stream: &Stream) -> io::Result<u8> {
    let silence: u64 = driver.silences.iter().map(|span| span.end - span.start).sum();
    let holes: u64 = stream.stretches.iter().map(|stretch| stretch.holes).sum();
    let status = if driver.phase == Phase::Drained { 0 } else { 11 };
    let (frames, runs) = (frames(number), driver.runs.len());
    writeln!(out, "make {number} frames {frames} runs {runs} silence {silence} holes {holes} status {status}")?;
    Ok(status)
}
