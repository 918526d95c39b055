// The driver of play.c in Rust, with no crate: a device that closes itself, over the functions of c/hda.h.
// Usage: play CODEC_FILE [quick | usual | difficult] [SEED]
use std::ffi::{c_char, c_int, c_uint, c_void};
use std::ptr::null_mut;

#[repr(C)]
#[derive(Clone, Copy)]
struct Habits {
    seed: u64,
    turns: u32,
    idle: u32,
    patience: u32,
    fetch: u32,
    starve: u32,
    lose: u32,
    frames: u32,
}

#[repr(C)]
#[derive(Clone, Copy, Default)]
struct Item {
    kind: u32,
    left: i32,
    right: i32,
}

#[repr(C)]
#[derive(Clone, Copy, Default)]
struct Pin {
    codec: u8,
    nid: u8,
}

extern "C" {
    fn hda_open(
        text: *const c_char,
        length: usize,
        memory: *mut c_void,
        size: usize,
        fault: *mut c_char,
        fault_size: usize,
    ) -> *mut c_void;
    fn hda_close(device: *mut *mut c_void);
    fn hda_read(device: *mut c_void, at: u32, bytes: c_uint) -> u32;
    fn hda_write(device: *mut c_void, at: u32, bytes: c_uint, value: u32) -> c_int;
    fn hda_dma_read(device: *mut c_void, address: u64, into: *mut c_void, bytes: usize) -> c_int;
    fn hda_dma_write(device: *mut c_void, address: u64, from: *const c_void, bytes: usize) -> c_int;
    fn hda_quick(seed: u64) -> Habits;
    fn hda_usual(seed: u64) -> Habits;
    fn hda_difficult(seed: u64) -> Habits;
    fn hda_act(device: *mut c_void, habits: *const Habits) -> c_int;
    fn hda_pass(device: *mut c_void, frames: u64) -> c_int;
    fn hda_pins(device: *mut c_void, into: *mut Pin, count: usize) -> usize;
    fn hda_heard(
        device: *mut c_void,
        codec: u8,
        nid: u8,
        from: u64,
        into: *mut Item,
        count: usize,
        heard: *mut u64,
    ) -> c_int;
}

const CORB: u32 = 0x1000;
const RIRB: u32 = 0x1400;
const LIST: u32 = 0x2000;
const SOUND: u32 = 0x2080;
const BUFFER: u32 = 384;

struct Driver {
    device: *mut c_void,
    sent: u32,
    seen: u32,
}

impl Drop for Driver {
    fn drop(&mut self) {
        unsafe { hda_close(&mut self.device) }
    }
}

impl Driver {
    fn open(text: &[u8]) -> Option<Driver> {
        let device = unsafe { hda_open(text.as_ptr().cast(), text.len(), null_mut(), 0, null_mut(), 0) };
        (!device.is_null()).then_some(Driver { device, sent: 0, seen: 0 })
    }
    fn act(&mut self, habits: Habits) {
        unsafe { hda_act(self.device, &habits) };
    }
    fn pass(&mut self, frames: u64) {
        unsafe { hda_pass(self.device, frames) };
    }
    fn read(&mut self, at: u32, bytes: u32) -> u32 {
        unsafe { hda_read(self.device, at, bytes) }
    }
    fn write(&mut self, at: u32, bytes: u32, value: u32) {
        unsafe { hda_write(self.device, at, bytes, value) };
    }
    fn put(&mut self, at: u32, bytes: &[u8]) {
        unsafe { hda_dma_write(self.device, at.into(), bytes.as_ptr().cast(), bytes.len()) };
    }
    fn word(&mut self, at: u32) -> u32 {
        let mut bytes = [0; 4];
        unsafe { hda_dma_read(self.device, at.into(), bytes.as_mut_ptr().cast(), 4) };
        u32::from_le_bytes(bytes)
    }
    fn bring_up(&mut self) {
        self.write(0x08, 4, 1);
        self.pass(25);
        for (at, bytes, value) in [(0x40, 4, CORB), (0x50, 4, RIRB), (0x5A, 2, 1), (0x4C, 1, 2), (0x5C, 1, 3)] {
            self.write(at, bytes, value)
        }
    }
    fn ask(&mut self, word: u32) -> Option<u32> {
        for waited in 0..20_000 {
            if waited % 1000 == 0 {
                self.sent = (self.sent + 1) % 256;
                self.put(CORB + 4 * self.sent, &word.to_le_bytes());
                self.write(0x48, 2, self.sent);
            }
            if self.read(0x58, 2) != self.seen {
                self.seen = (self.seen + 1) % 256;
                let answer = self.word(RIRB + 8 * self.seen);
                self.write(0x5D, 1, 1);
                return Some(answer);
            }
            self.pass(1);
        }
        None
    }
    fn play(&mut self, sound: &[i16]) {
        let bytes: Vec<u8> = sound.iter().flat_map(|sample| sample.to_le_bytes()).collect();
        let list: Vec<u8> = [SOUND, 0, BUFFER, 0, SOUND + BUFFER, 0, BUFFER, 0]
            .iter()
            .flat_map(|word: &u32| word.to_le_bytes())
            .collect();
        self.put(SOUND, &bytes);
        self.put(LIST, &list);
        for (at, bytes, value) in
            [(0xA8, 4, 2 * BUFFER), (0xAC, 2, 1), (0xB2, 2, 0x0011), (0xB8, 4, LIST), (0xA0, 4, 1 << 20 | 2)]
        {
            self.write(at, bytes, value)
        }
        // Holes put the sound off, so LPIB says when the link has taken it.
        for _ in 0..2000 {
            if self.read(0xA4, 4) as usize >= bytes.len() {
                break;
            }
            self.pass(1)
        }
        self.write(0xA0, 4, 1 << 20);
    }
    fn pins(&mut self) -> Vec<Pin> {
        let mut pins = [Pin::default(); 16];
        let count = unsafe { hda_pins(self.device, pins.as_mut_ptr(), pins.len()) };
        pins[..count].to_vec()
    }
    fn heard(&mut self, pin: Pin) -> Vec<Item> {
        let mut count = 0;
        unsafe { hda_heard(self.device, pin.codec, pin.nid, 0, null_mut(), 0, &mut count) };
        let mut items = vec![Item::default(); count as usize];
        unsafe { hda_heard(self.device, pin.codec, pin.nid, 0, items.as_mut_ptr(), items.len(), null_mut()) };
        items
    }
}

fn main() {
    let words: Vec<String> = std::env::args().collect();
    let text = std::fs::read(&words[1]).expect("a codec file");
    let seed = words.get(3).map_or(1, |word| word.parse().expect("a seed"));
    let habits = match words.get(2).map(String::as_str) {
        Some("quick") => unsafe { hda_quick(seed) },
        Some("difficult") => unsafe { hda_difficult(seed) },
        _ => unsafe { hda_usual(seed) },
    };
    let mut driver = Driver::open(&text).expect("a codec that is not refused");
    driver.act(habits);
    driver.bring_up();
    println!("vendor {:08x}", driver.ask(0x000F_0000).expect("an answer"));
    for verb in [0x0017_0500, 0x0022_0011, 0x0027_0610, 0x00C3_7000, 0x00C3_7180, 0x0143_B000, 0x0147_0740] {
        driver.ask(verb).expect("an answer");
    }
    let sound = [1, 2, 3, -1];
    driver.play(&sound);
    for pin in driver.pins() {
        let found: Vec<i32> = driver
            .heard(pin)
            .iter()
            .filter(|item| item.kind == 3)
            .take(2)
            .flat_map(|item| [item.left, item.right])
            .collect();
        assert_eq!(found, sound.map(i32::from));
        println!("pin {} {:02x}: played", pin.codec, pin.nid);
    }
}
