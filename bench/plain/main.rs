//! A plain program beside which hda_play is measured. It has no proof, and does the same job for the files that
//! `compare.py` makes: it reads them, plans routes, drives a device with codecs and a stream by the schedule, and
//! writes the same text. It keeps the bytes of blocks once for all pins, and makes each pin's lines while it writes
//! them.
mod capturing;
mod device;
mod driver;
mod graph;
mod inputs;
mod making;
mod playing;
mod report;
mod schedule;
mod toml;

use capturing::{write_capture, Input, InputStream, Recorder};
use device::{Device, Stream};
use driver::BringUp;
use graph::{read_machine, Format, Machine};
use playing::{pass, Driver, Pace};
use std::io::{self, Write};
use std::process::ExitCode;

/// The bytes of the ring of sound where the words don't ask for another.
const RING: usize = 12_288;

/// Why the program ends without a run.
enum Fault {
    Words,
    File,
    Out,
}

impl From<io::Error> for Fault {
    fn from(_: io::Error) -> Fault {
        Fault::Out
    }
}

fn read(name: &str) -> Result<Vec<u8>, Fault> {
    std::fs::read(name).map_err(|_| Fault::File)
}

fn machine(name: &str) -> Result<Machine, Fault> {
    read_machine(&read(name)?).ok_or(Fault::File)
}

/// What the ring gets for samples: each of 24 bits behind a byte 0, and each of one channel twice.
fn ring_bytes(samples: Vec<u8>, mono: bool, bits: u32) -> Vec<u8> {
    if !mono && bits != 24 {
        return samples;
    }
    let size = bits as usize / 8;
    let copies = if mono { 2 } else { 1 };
    let mut ring = Vec::with_capacity(samples.len() / size * 4 * copies);
    for sample in samples.chunks_exact(size) {
        for _ in 0..copies {
            if bits == 24 {
                ring.push(0);
            }
            ring.extend_from_slice(sample);
        }
    }
    ring
}

/// The format and the sound of a WAV file with one chunk `fmt ` of 16 bytes and one chunk `data`.
fn sound(name: &str) -> Result<(Format, Vec<u8>), Fault> {
    let mut bytes = read(name)?;
    if bytes.len() < 44 || &bytes[36..40] != b"data" {
        return Err(Fault::File);
    }
    let rate = u32::from_le_bytes([bytes[24], bytes[25], bytes[26], bytes[27]]);
    let (channels, bits) = (bytes[22], u32::from(bytes[34]));
    let frame = usize::from(channels) * bits as usize / 8;
    if frame == 0 {
        return Err(Fault::File);
    }
    let mono = channels == 1;
    let format = Format {
        rate,
        bits,
        channels: if mono { 2 } else { channels },
    };
    bytes.drain(..44);
    bytes.truncate(bytes.len() / frame * frame);
    Ok((format, ring_bytes(bytes, mono, bits)))
}

fn route(name: &str, channels: u8) -> Result<u8, Fault> {
    let machine = machine(name)?;
    let mut page = Vec::new();
    for codec in &machine.codecs {
        report::push_plan(
            &mut page,
            codec.address,
            &codec.plan(Format {
                channels,
                ..Format::PLAIN
            }),
        )?;
    }
    io::stdout().write_all(&page)?;
    Ok(0)
}

/// What a driver goes by with this machine and this sound.
fn pace(machine: &Machine, format: Format) -> Pace {
    let block = format.block() as u64;
    let most = match format.rate {
        96_000 => 2 * block,
        192_000 => 4 * block,
        _ => block,
    };
    let limit = (RING - machine.fifo) as u64 / most;
    Pace {
        block,
        limit,
        ahead: (machine.fifo as u64).next_multiple_of(block) + limit / 4 * most,
    }
}

/// The driver and the device once the schedule has ended.
fn driven(machine: &Machine, format: Format, sound: Vec<u8>, plays: bool, parts: &[schedule::Part]) -> (Driver, Device) {
    let addresses: Vec<u8> = machine.codecs.iter().map(|codec| codec.address).collect();
    let mut device = Device::new(&machine.codecs, Stream::new(format, RING, machine.fifo));
    let mut driver = Driver::new(BringUp::new(format, false), sound, plays, pace(machine, format));
    pass(&mut driver, &mut device, &addresses, parts);
    (driver, device)
}

fn make(number: u16) -> Result<u8, Fault> {
    let machine = read_machine(making::CODEC.as_bytes()).ok_or(Fault::File)?;
    let (driver, device) = driven(&machine, Format::PLAIN, making::sound(number), true, &making::schedule(number));
    Ok(making::write_line(&mut io::stdout().lock(), number, &driver, &device.stream)?)
}

fn drive(codec: &str, wav: Option<&str>, schedule: &str) -> Result<u8, Fault> {
    let machine = machine(codec)?;
    let (format, sound) = match wav {
        Some(name) => sound(name)?,
        None => (Format::PLAIN, Vec::new()),
    };
    let text = String::from_utf8(read(schedule)?).map_err(|_| Fault::File)?;
    let parts = schedule::read(&text).ok_or(Fault::File)?;
    let plans: Vec<_> = machine.codecs.iter().map(|codec| codec.plan(format)).collect();
    let total = (sound.len() / format.block()) as u64;
    let (driver, device) = driven(&machine, format, sound, wav.is_some(), &parts);
    let mut out = io::stdout().lock();
    Ok(report::write_run(
        &mut out,
        &machine.codecs,
        &plans,
        &driver,
        &device.stream,
        total,
        format,
        wav.is_some(),
    )?)
}

fn capture(codec: &str, wav: &str, schedule: &str) -> Result<u8, Fault> {
    let machine = machine(codec)?;
    let (format, sound) = sound(wav)?;
    let text = String::from_utf8(read(schedule)?).map_err(|_| Fault::File)?;
    let parts = schedule::read(&text).ok_or(Fault::File)?;
    let found = machine.codecs.iter().find_map(|codec| {
        let (hops, pin) = codec.input(format)?;
        Some(Input {
            address: codec.address,
            hops,
            pin,
        })
    });
    let Some(input) = found else {
        writeln!(io::stdout(), "nothing routed")?;
        return Ok(8);
    };
    let addresses: Vec<u8> = machine.codecs.iter().map(|codec| codec.address).collect();
    let pace = pace(&machine, format);
    let behind = (machine.fifo as u64).next_multiple_of(pace.block);
    let recorder = Recorder::new(sound.len() as u64, behind, pace.limit);
    let mut device = Device::new(&machine.codecs, Stream::new(format, RING, machine.fifo));
    device.input = Some(InputStream::new(format, RING, machine.fifo, sound));
    let mut driver = Driver::new(BringUp::new(format, true), Vec::new(), false, pace);
    driver.recorder = Some(recorder);
    pass(&mut driver, &mut device, &addresses, &parts);
    let mut out = io::stdout().lock();
    let (phase, sent) = (driver.phase, driver.bring_up.sent);
    match &driver.recorder {
        Some(recorder) => Ok(write_capture(&mut out, &input, &device, recorder, phase, format, sent)?),
        None => Ok(11),
    }
}

fn run() -> Result<u8, Fault> {
    let words: Vec<String> = std::env::args().skip(1).collect();
    let words: Vec<&str> = words.iter().map(String::as_str).collect();
    match words.as_slice() {
        ["route", codec] => route(codec, 2),
        ["route", codec, "--channels", channels] => route(codec, channels.parse().map_err(|_| Fault::Words)?),
        ["walk", codec, schedule] => drive(codec, None, schedule),
        ["play", codec, wav, schedule] => drive(codec, Some(wav), schedule),
        ["capture", codec, wav, schedule] => capture(codec, wav, schedule),
        ["make", number] => make(number.parse().map_err(|_| Fault::Words)?),
        _ => Err(Fault::Words),
    }
}

fn main() -> ExitCode {
    match run() {
        Ok(status) => ExitCode::from(status),
        Err(Fault::Words) => ExitCode::from(2),
        Err(Fault::File) => ExitCode::from(3),
        Err(Fault::Out) => ExitCode::from(4),
    }
}
