//! The input of a codec: the path from its converter to the pin, and the verbs that open it.
use crate::driver::{amplifier, short, wide};
use crate::graph::{Codec, Format, Hop, Kind, Node, NODES};

impl Codec {
    /// The input: the least path from an input converter to the first candidate pin that has one, and the pin.
    pub fn input(&self, format: Format) -> Option<(Vec<Hop>, u8)> {
        let pins = self.order(Node::is_input);
        pins.into_iter().find_map(|pin| Some((self.path_to(pin, format)?, pin)))
    }

    /// The least path from an input converter to a pin: the fewest hops, then the least converter, then the least indexes.
    fn path_to(&self, pin: u8, format: Format) -> Option<Vec<Hop>> {
        let mut far = [u8::MAX; NODES];
        far[usize::from(pin)] = 0;
        let leads = |node: &Node| {
            let converts = node.kind() == Kind::Input && self.supports(node, format);
            node.is_analog_stereo() && (node.is_inner() || converts)
        };
        let nearest = |node: &Node, far: &[u8; NODES]| {
            let open = |(index, next): (usize, &u8)| {
                let ends = *next == pin || self.node(*next).is_some_and(Node::is_inner);
                (ends && self.can_be_left(node, index)).then_some((far[usize::from(*next)], index))
            };
            node.list.iter().enumerate().filter_map(open).min()
        };
        let mut changed = true;
        while changed {
            changed = false;
            for nid in self.first..self.first + self.count {
                let node = self.node(nid)?;
                if !leads(node) {
                    continue;
                }
                if let Some((hops, _)) = nearest(node, &far) {
                    if hops != u8::MAX && hops + 1 < far[usize::from(nid)] {
                        far[usize::from(nid)] = hops + 1;
                        changed = true;
                    }
                }
            }
        }
        let ends = (self.first..self.first + self.count).filter(|nid| {
            let reached = far[usize::from(*nid)] != u8::MAX;
            reached && self.node(*nid).is_some_and(|node| node.kind() == Kind::Input)
        });
        let mut nid = ends.min_by_key(|nid| far[usize::from(*nid)])?;
        let mut hops = Vec::new();
        while nid != pin {
            let node = self.node(nid)?;
            let (_, index) = nearest(node, &far)?;
            hops.push(Hop {
                nid,
                index: index as u8,
            });
            nid = node.list[index];
        }
        Some(hops)
    }
}

/// The verbs that open an input, the path from its converter on and the pin, each with the codec's address; in a codec
/// without one they silence all.
pub fn input_verbs(codec: &Codec, input: Option<&(Vec<Hop>, u8)>, format: Format, verbs: &mut Vec<(u8, u32)>) {
    let mut set = |nid: u8, word: u32| verbs.push((codec.address, u32::from(nid) << 20 | word));
    let hop_at = |nid: u8| input.and_then(|input| input.0.iter().find(|hop| hop.nid == nid));
    let index_at = |nid: u8| hop_at(nid).map(|hop| hop.index);
    let is_pin = |nid: u8| input.is_some_and(|input| input.1 == nid);
    let is_on = |nid: u8| index_at(nid).is_some() || is_pin(nid);
    let nodes: Vec<(u8, &Node)> = (0..NODES as u8).filter_map(|nid| Some((nid, codec.node(nid)?))).collect();
    set(codec.group, short(0x705, 0));
    for (nid, _) in nodes.iter().filter(|(nid, node)| is_on(*nid) && node.has(10)) {
        set(*nid, short(0x705, 0));
    }
    for (nid, _) in nodes.iter().filter(|(nid, node)| !is_on(*nid) && node.kind() == Kind::Pin) {
        set(*nid, short(0x707, 0));
    }
    for (nid, node) in &nodes {
        if !is_on(*nid) && matches!(node.kind(), Kind::Output | Kind::Input) {
            set(*nid, short(0x706, 0));
        }
    }
    for (nid, node) in nodes.iter().filter(|(nid, _)| is_on(*nid)) {
        let amps = codec.amp_words(node);
        match index_at(*nid) {
            Some(index) if node.kind() == Kind::Mixer => {
                for place in 0..if node.has(1) { node.list.len() } else { 0 } {
                    set(*nid, amplifier(false, place, place != usize::from(index), amps.amp_in));
                }
            }
            Some(index) => {
                if node.list.len() >= 2 {
                    set(*nid, short(0x701, u32::from(index)));
                }
                if node.kind() == Kind::Input {
                    set(*nid, wide(0x2, u32::from(format.channels) - 1 | format.size_code() << 4));
                    set(*nid, short(0x706, 0x10));
                }
                if node.has(1) {
                    set(*nid, amplifier(false, usize::from(index), false, amps.amp_in));
                }
            }
            None => {
                if node.has(1) {
                    set(*nid, amplifier(false, 0, false, amps.amp_in));
                }
                set(*nid, short(0x707, 0x20));
            }
        }
        if node.has(2) {
            set(*nid, amplifier(true, 0, false, amps.amp_out));
        }
    }
}
