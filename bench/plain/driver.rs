//! What the driver asks codecs and tells them: the walk over each, and the verbs that set it up.
use crate::graph::{Codec, Format, Kind, Node, Plan, Role, NODES};
use crate::inputs::input_verbs;
use std::collections::VecDeque;

/// A question of the walk, or a verb of the set-up.
#[derive(Clone, Copy)]
enum Ask {
    Codec(u8),
    Caps(u8),
    Word(u8, u8),
    Length(u8),
    Entries(u8, u8),
    Power(u8),
    Set(u8, u32),
}

/// The bring-up of codecs: those that are walked over, those that still are to be, and what is asked next.
pub struct BringUp {
    told: Vec<Codec>,
    left: VecDeque<u8>,
    queue: VecDeque<Ask>,
    format: Format,
    /// Whether an input is set up, and not outputs.
    records: bool,
    pub sent: u32,
    waits: Option<Ask>,
    set_up: bool,
}

const GET_PARAM: u32 = 0xF00;
const GET_LIST: u32 = 0xF02;
const GET_DEFAULT: u32 = 0xF1C;

/// The node and the parameter of a word of the root and the group.
fn codec_word(codec: &Codec, word: u8) -> (u8, u32) {
    match word {
        0 => (0, 0x00),
        1 => (0, 0x02),
        2 => (0, 0x04),
        3 => (codec.group, 0x05),
        4 => (codec.group, 0x04),
        5 => (codec.group, 0x0A),
        6 => (codec.group, 0x0B),
        7 => (codec.group, 0x0D),
        8 => (codec.group, 0x12),
        _ => (codec.group, 0x0F),
    }
}

/// The verb and payload of a word of a widget.
fn node_word(word: u8) -> (u32, u32) {
    match word {
        0 => (GET_PARAM, 0x0A),
        1 => (GET_PARAM, 0x0B),
        2 => (GET_PARAM, 0x0C),
        3 => (GET_DEFAULT, 0),
        4 => (GET_PARAM, 0x0D),
        _ => (GET_PARAM, 0x12),
    }
}

/// Whether a word applies to a widget.
fn applies(node: &Node, word: u8) -> bool {
    match word {
        0 | 1 => matches!(node.kind(), Kind::Output | Kind::Input) && node.has(4),
        2 | 3 => node.kind() == Kind::Pin,
        4 => node.has(3) && node.has(1),
        _ => node.has(3) && node.has(2),
    }
}

/// A verb of 12 bits with its payload of 8, or one of 4 with a payload of 16.
pub fn short(verb: u32, payload: u32) -> u32 {
    verb << 8 | payload
}

pub fn wide(verb: u32, payload: u32) -> u32 {
    verb << 16 | payload
}

impl BringUp {
    pub fn new(format: Format, records: bool) -> BringUp {
        BringUp {
            told: Vec::new(),
            left: VecDeque::new(),
            queue: VecDeque::new(),
            format,
            records,
            sent: 0,
            waits: None,
            set_up: false,
        }
    }

    /// Begins the walk over the codecs with these addresses.
    pub fn begin(&mut self, addresses: &[u8]) {
        self.left.extend(addresses);
        self.next_codec();
    }

    fn next_codec(&mut self) {
        match self.left.pop_front() {
            Some(address) => {
                self.told.push(Codec {
                    address,
                    ..Codec::default()
                });
                self.queue.extend((0..10).map(Ask::Codec));
            }
            None if !self.set_up => {
                self.set_up = true;
                let mut verbs = Vec::new();
                let mut found = false;
                for codec in &self.told {
                    if self.records {
                        let input = if found { None } else { codec.input(self.format) };
                        found |= input.is_some();
                        input_verbs(codec, input.as_ref(), self.format, &mut verbs);
                    } else {
                        let plan = codec.plan(self.format);
                        setup_verbs(codec, &plan, self.format, &mut verbs);
                    }
                }
                self.queue
                    .extend(verbs.iter().map(|(address, word)| Ask::Set(*address, *word)));
            }
            None => {}
        }
    }

    pub fn waits(&self) -> bool {
        self.waits.is_some()
    }

    pub fn is_done(&self) -> bool {
        self.set_up && self.queue.is_empty() && self.waits.is_none()
    }

    /// The word of the next command.
    pub fn next_command(&mut self) -> Option<u32> {
        let ask = self.queue.pop_front()?;
        self.waits = Some(ask);
        self.sent += 1;
        let codec = self.told.last()?;
        let (nid, word) = match ask {
            Ask::Codec(word) => {
                let (nid, parameter) = codec_word(codec, word);
                (nid, short(GET_PARAM, parameter))
            }
            Ask::Caps(nid) => (nid, short(GET_PARAM, 0x09)),
            Ask::Word(nid, word) => {
                let (verb, payload) = node_word(word);
                (nid, short(verb, payload))
            }
            Ask::Length(nid) => (nid, short(GET_PARAM, 0x0E)),
            Ask::Entries(nid, place) => (nid, short(GET_LIST, u32::from(place))),
            Ask::Power(nid) => (nid, short(GET_PARAM, 0x0F)),
            Ask::Set(address, word) => return Some(u32::from(address) << 28 | word),
        };
        Some(u32::from(codec.address) << 28 | u32::from(nid) << 20 | word)
    }

    /// Takes the answer to the command that waits.
    pub fn take(&mut self, answer: u32) {
        let Some(ask) = self.waits.take() else {
            return;
        };
        if let Some(codec) = self.told.last_mut() {
            learn(codec, ask, answer, &mut self.queue);
        }
        if self.queue.is_empty() {
            if let Some(codec) = self.told.last_mut() {
                for node in &mut codec.nodes {
                    if node.list.is_empty() {
                        let _ = node.expand();
                    }
                }
            }
            self.next_codec();
        }
    }
}

/// What an answer says, and what is asked after it.
fn learn(codec: &mut Codec, ask: Ask, answer: u32, queue: &mut VecDeque<Ask>) {
    match ask {
        Ask::Codec(word) => learn_word(codec, word, answer, queue),
        Ask::Caps(nid) => learn_caps(codec.told(nid), nid, answer, queue),
        Ask::Word(nid, word) => {
            let node = codec.told(nid);
            match word {
                0 => node.words.pcm = answer,
                1 => node.words.formats = answer,
                2 => node.pin_caps = answer,
                3 => node.default = answer,
                4 => node.words.amp_in = answer,
                _ => node.words.amp_out = answer,
            }
        }
        Ask::Length(nid) => learn_length(codec.told(nid), nid, answer, queue),
        Ask::Entries(nid, place) => learn_entries(codec.told(nid), usize::from(place), answer),
        Ask::Power(nid) => codec.told(nid).words.power = answer,
        Ask::Set(_, _) => {}
    }
}

/// A word of the root or the group.
fn learn_word(codec: &mut Codec, word: u8, answer: u32, queue: &mut VecDeque<Ask>) {
    match word {
        0 => codec.vendor = answer,
        1 => codec.revision = answer,
        2 => codec.group = (answer >> 16 & 127) as u8,
        3 => codec.group_type = answer,
        4 => {
            codec.first = (answer >> 16) as u8;
            codec.count = answer as u8;
            codec.nodes = vec![Node::default(); usize::from(codec.count)];
        }
        5 => codec.words.pcm = answer,
        6 => codec.words.formats = answer,
        7 => codec.words.amp_in = answer,
        8 => codec.words.amp_out = answer,
        _ => {
            codec.words.power = answer;
            queue.extend((codec.first..codec.first + codec.count).map(Ask::Caps));
        }
    }
}

/// A widget's capabilities: what they say that it has is asked for next.
fn learn_caps(node: &mut Node, nid: u8, answer: u32, queue: &mut VecDeque<Ask>) {
    node.caps = answer;
    if node.has(10) {
        queue.push_front(Ask::Power(nid));
    }
    if node.has(8) {
        queue.push_front(Ask::Length(nid));
    }
    for word in (0..6).rev().filter(|word| applies(node, *word)) {
        queue.push_front(Ask::Word(nid, word));
    }
}

/// The length of a connection list: its words are asked for next.
fn learn_length(node: &mut Node, nid: u8, answer: u32, queue: &mut VecDeque<Ask>) {
    node.long = answer >> 7 & 1 == 1;
    let length = (answer & 127) as u8;
    let step = if node.long { 2 } else { 4 };
    for word in (0..length.div_ceil(step)).rev() {
        queue.push_front(Ask::Entries(nid, word * step));
    }
    node.entries = vec![0; usize::from(length)];
}

/// A word of a connection list.
fn learn_entries(node: &mut Node, place: usize, answer: u32) {
    let (count, width) = if node.long { (2, 16) } else { (4, 8) };
    for part in 0..count {
        if let Some(entry) = node.entries.get_mut(place + part) {
            *entry = (answer >> (width * part) & ((1 << width) - 1)) as u16;
        }
    }
}

/// An amplifier's payload: both sides of the output or of the input at a place.
pub fn amplifier(output: bool, place: usize, mute: bool, word: u32) -> u32 {
    let gain = if mute { 0x80 } else { word & 127 };
    let side = if output { 0x8000 } else { 0x4000 };
    wide(0x3, side | 0x3000 | (place as u32) << 8 | gain)
}

/// The verbs that open the routes of a plan, each with the codec's address.
fn setup_verbs(codec: &Codec, plan: &Plan, format: Format, verbs: &mut Vec<(u8, u32)>) {
    let mut set = |nid: u8, word: u32| verbs.push((codec.address, u32::from(nid) << 20 | word));
    set(codec.group, short(0x705, 0));
    let nodes = |step: &mut dyn FnMut(u8, &Node, Role)| {
        for nid in 0..NODES as u8 {
            if let Some(node) = codec.node(nid) {
                step(nid, node, plan.roles[usize::from(nid)]);
            }
        }
    };
    nodes(&mut |nid, node, role| {
        if role != Role::Unused && node.has(10) {
            set(nid, short(0x705, 0));
        }
    });
    nodes(&mut |nid, node, role| {
        if role == Role::Unused && node.kind() == Kind::Pin {
            set(nid, short(0x707, 0));
        }
    });
    nodes(&mut |nid, node, role| {
        if role == Role::Unused && node.kind() == Kind::Output {
            set(nid, short(0x706, 0));
        }
    });
    nodes(&mut |nid, node, role| match role {
        Role::Unused => {}
        Role::Source(pair) => {
            set(nid, wide(0x2, u32::from(format.channels) - 1 | format.size_code() << 4));
            set(nid, short(0x706, 0x10 | 2 * u32::from(pair)));
            if node.has(2) {
                set(nid, amplifier(true, 0, false, codec.amp_words(node).amp_out));
            }
        }
        Role::Passed(index) => {
            for word in passed_verbs(codec, plan, nid, node, index) {
                set(nid, word);
            }
        }
    });
}

/// The verbs of a node that a route leaves by an index.
fn passed_verbs(codec: &Codec, plan: &Plan, nid: u8, node: &Node, index: u8) -> Vec<u32> {
    let mut words = Vec::new();
    let amps = codec.amp_words(node);
    if node.kind() == Kind::Mixer && node.has(1) {
        for place in 0..node.list.len() {
            words.push(amplifier(false, place, place != usize::from(index), amps.amp_in));
        }
    }
    if matches!(node.kind(), Kind::Selector | Kind::Pin) && node.list.len() >= 2 {
        words.push(short(0x701, u32::from(index)));
    }
    if node.kind() == Kind::Selector && node.has(1) {
        words.push(amplifier(false, usize::from(index), false, amps.amp_in));
    }
    if node.has(2) {
        words.push(amplifier(true, 0, false, amps.amp_out));
    }
    if node.kind() == Kind::Pin {
        if node.pin_caps >> 16 & 1 == 1 {
            words.push(short(0x70C, 2));
        }
        if node.pin_caps >> 2 & 1 == 1 && node.has(7) {
            let tag = plan.pins.iter().position(|entry| entry.pin == nid).unwrap_or(0) as u32 + 1;
            words.push(short(0x708, 0x80 | tag));
        }
        let headphone = node.default >> 20 & 15 == 2 && node.pin_caps >> 3 & 1 == 1;
        words.push(short(0x707, if headphone { 0xC0 } else { 0x40 }));
    }
    words
}

/// What a codec answers to a word, and what it is set to then.
pub fn answer(codec: &Codec, settings: &mut [u32], word: u32) -> u32 {
    let nid = (word >> 20 & 127) as u8;
    let verb = word >> 8 & 0xFFF;
    let payload = word & 0xFF;
    match verb {
        GET_PARAM => parameter(codec, nid, payload),
        GET_LIST => codec.node(nid).map_or(0, |node| entries(node, payload as usize)),
        GET_DEFAULT => codec.node(nid).map_or(0, |node| node.default),
        _ => {
            let control = if verb >> 8 == 7 { verb & 31 } else { 31 };
            settings[usize::from(nid) * 32 + control as usize] = word & 0xFFFF;
            0
        }
    }
}

fn entries(node: &Node, place: usize) -> u32 {
    let (count, width) = if node.long { (2, 16) } else { (4, 8) };
    let from = place / count * count;
    let mut word = 0;
    for part in 0..count {
        word |= u32::from(node.entries.get(from + part).copied().unwrap_or(0)) << (width * part);
    }
    word
}

fn parameter(codec: &Codec, nid: u8, number: u32) -> u32 {
    if nid == 0 {
        return match number {
            0x00 => codec.vendor,
            0x02 => codec.revision,
            0x04 => u32::from(codec.group) << 16 | 1,
            _ => 0,
        };
    }
    if nid == codec.group {
        return match number {
            0x04 => u32::from(codec.first) << 16 | u32::from(codec.count),
            0x05 => codec.group_type,
            0x0A => codec.words.pcm,
            0x0B => codec.words.formats,
            0x0D => codec.words.amp_in,
            0x12 => codec.words.amp_out,
            0x0F => codec.words.power,
            _ => 0,
        };
    }
    let Some(node) = codec.node(nid) else {
        return 0;
    };
    match number {
        0x09 => node.caps,
        0x0A => node.words.pcm,
        0x0B => node.words.formats,
        0x0C => node.pin_caps,
        0x0D => node.words.amp_in,
        0x12 => node.words.amp_out,
        0x0E => node.entries.len() as u32 | u32::from(node.long) << 7,
        0x0F => node.words.power,
        _ => 0,
    }
}
