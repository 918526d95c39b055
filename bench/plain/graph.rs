//! Codecs as graphs of widgets, their candidate pins, and the plan of their routes.
use crate::toml::{array, number, read, Value};

/// How many node identifiers there are.
pub const NODES: usize = 128;

#[derive(Clone, Copy, Default)]
pub struct Words {
    pub pcm: u32,
    pub formats: u32,
    pub amp_in: u32,
    pub amp_out: u32,
    pub power: u32,
}

#[derive(Clone, Default)]
pub struct Node {
    pub caps: u32,
    pub pin_caps: u32,
    pub default: u32,
    pub words: Words,
    pub long: bool,
    pub entries: Vec<u16>,
    pub list: Vec<u8>,
}

#[derive(Clone, Copy, PartialEq)]
pub enum Kind {
    Output,
    Input,
    Mixer,
    Selector,
    Pin,
    Other,
}

impl Node {
    pub fn has(&self, bit: u32) -> bool {
        self.caps >> bit & 1 == 1
    }

    pub fn kind(&self) -> Kind {
        match self.caps >> 20 & 15 {
            0 => Kind::Output,
            1 => Kind::Input,
            2 => Kind::Mixer,
            3 => Kind::Selector,
            4 => Kind::Pin,
            _ => Kind::Other,
        }
    }

    pub fn is_inner(&self) -> bool {
        matches!(self.kind(), Kind::Mixer | Kind::Selector)
    }

    pub fn is_analog_stereo(&self) -> bool {
        self.has(0) && !self.has(9)
    }

    fn is_candidate(&self) -> bool {
        self.is_connected(4) && self.default >> 20 & 15 <= 2
    }

    /// Whether it is a candidate of an input: a line in or a microphone.
    pub fn is_input(&self) -> bool {
        self.is_connected(5) && matches!(self.default >> 20 & 15, 8 | 10)
    }

    /// Whether it is a pin with this capability that leads somewhere.
    fn is_connected(&self, capability: u32) -> bool {
        let default = self.default;
        self.kind() == Kind::Pin
            && self.is_analog_stereo()
            && self.pin_caps >> capability & 1 == 1
            && default >> 30 != 1
            && default >> 4 & 15 != 0
    }

    /// The identifiers that the entries of the connection list stand for.
    pub fn expand(&mut self) -> Option<()> {
        let top = if self.long { 15 } else { 7 };
        let mut before: Option<u16> = None;
        for entry in &self.entries {
            let nid = entry & ((1 << top) - 1);
            if nid == 0 || usize::from(nid) >= NODES {
                return None;
            }
            if entry >> top == 1 {
                for inner in before?.checked_add(1)?..nid {
                    self.list.push(inner as u8);
                }
            }
            self.list.push(nid as u8);
            before = Some(nid);
        }
        Some(())
    }
}

#[derive(Clone, Default)]
pub struct Codec {
    pub address: u8,
    pub vendor: u32,
    pub revision: u32,
    pub group: u8,
    pub group_type: u32,
    pub words: Words,
    pub first: u8,
    pub count: u8,
    pub nodes: Vec<Node>,
}

pub struct Machine {
    pub fifo: usize,
    pub codecs: Vec<Codec>,
}

fn read_node(value: &Value) -> Option<(u8, Node)> {
    let Value::Table(table) = value else {
        return None;
    };
    let word = |name: &str| number(table, name, 0) as u32;
    let mut node = Node {
        caps: word("caps"),
        pin_caps: word("pin_caps"),
        default: word("default"),
        words: Words {
            pcm: word("pcm"),
            formats: word("formats"),
            amp_in: word("amp_in"),
            amp_out: word("amp_out"),
            power: word("power"),
        },
        long: number(table, "long", 0) == 1,
        ..Node::default()
    };
    for entry in array(table, "list") {
        let Value::Number(entry) = entry else {
            return None;
        };
        node.entries.push(*entry as u16);
    }
    node.expand()?;
    Some((number(table, "nid", 0) as u8, node))
}

fn read_codec(value: &Value) -> Option<Codec> {
    let Value::Table(table) = value else {
        return None;
    };
    let word = |name: &str, default: u64| number(table, name, default) as u32;
    let mut nodes = Vec::new();
    for node in array(table, "node") {
        nodes.push(read_node(node)?);
    }
    let least = nodes.iter().map(|node| node.0).min()?;
    let most = nodes.iter().map(|node| node.0).max()?;
    let first = word("first", u64::from(least)) as u8;
    let count = word("count", u64::from(most - least) + 1) as u8;
    let mut codec = Codec {
        address: word("address", 0) as u8,
        vendor: word("vendor", 0),
        revision: word("revision", 0),
        group: word("group", 1) as u8,
        group_type: word("group_type", 1),
        words: Words {
            pcm: word("pcm", 0x0002_0040),
            formats: word("formats", 1),
            amp_in: word("amp_in", 0),
            amp_out: word("amp_out", 0),
            power: word("power", 0),
        },
        first,
        count,
        nodes: vec![
            Node {
                caps: 0x00F0_0000,
                ..Node::default()
            };
            usize::from(count)
        ],
    };
    for (nid, node) in nodes {
        *codec.nodes.get_mut(usize::from(nid.checked_sub(first)?))? = node;
    }
    Some(codec)
}

/// The machine of a codec file. `None` where it has a fault.
pub fn read_machine(bytes: &[u8]) -> Option<Machine> {
    let top = read(bytes)?;
    let mut codecs = Vec::new();
    for codec in array(&top, "codec") {
        codecs.push(read_codec(codec)?);
    }
    codecs.sort_by_key(|codec| codec.address);
    for codec in &codecs {
        if !codec.is_sound() {
            return None;
        }
    }
    Some(Machine {
        fifo: number(&top, "fifo", 192) as usize,
        codecs,
    })
}

#[derive(Clone, Copy, PartialEq)]
pub struct Hop {
    pub nid: u8,
    pub index: u8,
}

pub enum Outcome {
    Route(Vec<Hop>, u8),
    Blocked,
    NoPath,
}

pub struct PinPlan {
    pub pin: u8,
    pub pair: u8,
    pub outcome: Outcome,
}

/// What the routes so far make of a node.
#[derive(Clone, Copy, PartialEq)]
pub enum Role {
    Unused,
    Passed(u8),
    Source(u8),
}

pub struct Plan {
    pub pins: Vec<PinPlan>,
    pub roles: Vec<Role>,
}

#[derive(Clone, Copy)]
pub struct Format {
    pub rate: u32,
    pub bits: u32,
    pub channels: u8,
}

impl Format {
    /// Two channels of 16 bits at 48 kHz.
    pub const PLAIN: Format = Format {
        rate: 48_000,
        bits: 16,
        channels: 2,
    };

    /// The bytes of a sample's container.
    pub fn container(self) -> usize {
        if self.bits == 16 {
            2
        } else {
            4
        }
    }

    pub fn block(self) -> usize {
        self.container() * usize::from(self.channels)
    }

    /// How its word says the size of a sample.
    pub fn size_code(self) -> u32 {
        match self.bits {
            16 => 1,
            24 => 3,
            _ => 4,
        }
    }

    /// The bit of that size in a word of PCM sizes and rates.
    fn size_bit(self) -> u32 {
        match self.bits {
            16 => 17,
            24 => 19,
            _ => 20,
        }
    }

    /// The bit of its rate in a word of PCM sizes and rates.
    fn rate_bit(self) -> u32 {
        match self.rate {
            8_000 => 0,
            16_000 => 2,
            44_100 => 5,
            48_000 => 6,
            96_000 => 8,
            _ => 10,
        }
    }
}

impl Codec {
    pub fn node(&self, nid: u8) -> Option<&Node> {
        self.nodes.get(usize::from(nid.checked_sub(self.first)?))
    }

    /// A widget that was told.
    pub fn told(&mut self, nid: u8) -> &mut Node {
        &mut self.nodes[usize::from(nid - self.first)]
    }

    /// The words of a converter, or those of an amplifier: its own or the group's.
    fn words_of(&self, node: &Node, own: u32) -> Words {
        if node.has(own) {
            node.words
        } else {
            self.words
        }
    }

    pub fn amp_words(&self, node: &Node) -> Words {
        self.words_of(node, 3)
    }

    pub fn supports(&self, node: &Node, format: Format) -> bool {
        let words = self.words_of(node, 4);
        words.formats & 1 == 1 && words.pcm >> format.rate_bit() & 1 == 1 && words.pcm >> format.size_bit() & 1 == 1
    }

    /// Whether connections lead to widgets, and none through mixers and selectors alone leads back.
    fn is_sound(&self) -> bool {
        let inside = |nid: &u8| self.node(*nid).is_some();
        self.nodes.iter().all(|node| node.list.iter().all(inside)) && !self.has_cycle()
    }

    fn has_cycle(&self) -> bool {
        let mut state = [0u8; NODES];
        (0..NODES as u8).any(|nid| self.is_on_cycle(nid, &mut state))
    }

    fn is_on_cycle(&self, nid: u8, state: &mut [u8; NODES]) -> bool {
        let Some(node) = self.node(nid) else {
            return false;
        };
        if !node.is_inner() || state[usize::from(nid)] == 2 {
            return false;
        }
        if state[usize::from(nid)] == 1 {
            return true;
        }
        state[usize::from(nid)] = 1;
        let found = node.list.iter().any(|next| self.is_on_cycle(*next, state));
        state[usize::from(nid)] = 2;
        found
    }

    /// The pins that are such candidates, in their order.
    pub fn order(&self, is_candidate: fn(&Node) -> bool) -> Vec<u8> {
        let nids = self.first..self.first + self.count;
        let mut pins: Vec<u8> = nids
            .filter(|nid| self.node(*nid).is_some_and(is_candidate))
            .collect();
        pins.sort_by_key(|nid| {
            let default = self.node(*nid).map_or(0, |node| node.default);
            (default >> 4 & 15, default & 15, *nid)
        });
        pins
    }

    pub fn can_be_left(&self, node: &Node, index: usize) -> bool {
        let mixer = node.kind() != Kind::Mixer
            || node.list.len() < 2
            || node.has(1) && self.amp_words(node).amp_in >> 31 == 1;
        let selector = !matches!(node.kind(), Kind::Selector | Kind::Input) || !node.has(1) || index <= 15;
        mixer && selector
    }

    /// How many hops each node is away from a converter that the pair can use, where nodes of routes are left as they
    /// are.
    fn distances(&self, format: Format, pair: u8, roles: &[Role]) -> [u8; NODES] {
        let mut far = [u8::MAX; NODES];
        let mut queue = Vec::new();
        let mut below: Vec<Vec<u8>> = vec![Vec::new(); NODES];
        for nid in self.first..self.first + self.count {
            let node = &self.nodes[usize::from(nid - self.first)];
            if !node.is_analog_stereo() {
                continue;
            }
            let role = roles[usize::from(nid)];
            if node.kind() == Kind::Output
                && self.supports(node, format)
                && (role == Role::Unused || role == Role::Source(pair))
            {
                far[usize::from(nid)] = 0;
                queue.push(nid);
            }
            if node.is_inner() {
                for (index, next) in node.list.iter().enumerate() {
                    let open = role == Role::Unused || role == Role::Passed(index as u8);
                    if open && self.can_be_left(node, index) {
                        below[usize::from(*next)].push(nid);
                    }
                }
            }
        }
        let mut at = 0;
        while at < queue.len() {
            let nid = queue[at];
            at += 1;
            for above in &below[usize::from(nid)] {
                if far[usize::from(*above)] == u8::MAX {
                    far[usize::from(*above)] = far[usize::from(nid)] + 1;
                    queue.push(*above);
                }
            }
        }
        far
    }

    /// The least route of a pin by these distances.
    fn route(&self, pin: u8, far: &[u8; NODES], roles: &[Role]) -> Option<(Vec<Hop>, u8)> {
        let mut hops = Vec::new();
        let mut nid = pin;
        let mut left = u8::MAX;
        loop {
            let node = self.node(nid)?;
            if nid != pin && far[usize::from(nid)] == 0 {
                return Some((hops, nid));
            }
            let open = |index: usize| match roles[usize::from(nid)] {
                Role::Passed(used) if nid != pin => usize::from(used) == index,
                _ => true,
            };
            let nearest = node.list.iter().map(|next| far[usize::from(*next)]).min()?;
            let wanted = if nid == pin { nearest } else { left - 1 };
            if wanted == u8::MAX {
                return None;
            }
            let fits = |(index, next): &(usize, &u8)| {
                far[usize::from(**next)] == wanted && open(*index) && self.can_be_left(node, *index)
            };
            let (index, next) = node.list.iter().enumerate().find(fits)?;
            hops.push(Hop {
                nid,
                index: index as u8,
            });
            nid = *next;
            left = wanted;
        }
    }

    pub fn plan(&self, format: Format) -> Plan {
        let mut plan = Plan {
            pins: Vec::new(),
            roles: vec![Role::Unused; NODES],
        };
        let free = vec![Role::Unused; NODES];
        let pairs = format.channels / 2;
        // how many pins of the association were passed that are no headphones
        let mut passed = 0;
        let mut association = None;
        for pin in self.order(Node::is_candidate) {
            let default = self.node(pin).map_or(0, |node| node.default);
            let of = Some(default >> 4 & 15);
            if of != association {
                passed = 0;
                association = of;
            }
            let pair = if default >> 20 & 15 == 2 {
                0
            } else {
                passed += 1;
                (passed - 1) % pairs
            };
            let far = self.distances(format, pair, &plan.roles);
            let outcome = match self.route(pin, &far, &plan.roles) {
                Some((hops, converter)) => {
                    for hop in &hops {
                        plan.roles[usize::from(hop.nid)] = Role::Passed(hop.index);
                    }
                    plan.roles[usize::from(converter)] = Role::Source(pair);
                    Outcome::Route(hops, converter)
                }
                None => match self.route(pin, &self.distances(format, pair, &free), &free) {
                    Some(_) => Outcome::Blocked,
                    None => Outcome::NoPath,
                },
            };
            plan.pins.push(PinPlan { pin, pair, outcome });
        }
        plan
    }
}
