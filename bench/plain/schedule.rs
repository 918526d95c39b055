//! Schedules: the steps of the device and the calls of the driver, with repeats.

#[derive(Clone, Copy)]
pub enum Step {
    Corb,
    Rirb,
    Answer(u8),
    Lose(u8),
    Fetch(u8, u32),
    Link(u32),
    Plug,
}

pub enum Line {
    Step(Step),
    /// A call of the driver, and the steps of its groups, all of which come after its accesses.
    Run(u64, Vec<Step>),
}

/// Some lines, and how often they are passed.
pub struct Part {
    pub times: u32,
    pub lines: Vec<Line>,
}

fn step(words: &[&str]) -> Option<Step> {
    let number = |at: usize| words.get(at)?.parse::<u32>().ok();
    match *words.first()? {
        "corb" => Some(Step::Corb),
        "rirb" => Some(Step::Rirb),
        "answer" => Some(Step::Answer(number(1)? as u8)),
        "lose" => Some(Step::Lose(number(1)? as u8)),
        "fetch" => Some(Step::Fetch(number(1)? as u8, number(2)?)),
        "link" => Some(Step::Link(number(1)?)),
        "plug" | "unplug" => Some(Step::Plug),
        _ => None,
    }
}

fn line(text: &str) -> Option<Line> {
    let words: Vec<&str> = text.split(' ').filter(|word| !word.is_empty()).collect();
    if *words.first()? != "run" {
        return Some(Line::Step(step(&words)?));
    }
    let budget = words.get(1)?.parse().ok()?;
    let mut steps = Vec::new();
    for group in text.split('|').skip(1).filter(|group| group.trim() != "-") {
        for one in group.split(',') {
            let words: Vec<&str> = one.split(' ').filter(|word| !word.is_empty()).collect();
            steps.push(step(&words)?);
        }
    }
    Some(Line::Run(budget, steps))
}

/// The parts of a schedule. `None` where a line is none of the format.
pub fn read(text: &str) -> Option<Vec<Part>> {
    let mut parts = vec![Part {
        times: 1,
        lines: Vec::new(),
    }];
    for text in text.lines() {
        let text = text.trim();
        if text.is_empty() || text.starts_with('#') {
            continue;
        }
        if let Some(times) = text.strip_prefix("repeat ") {
            parts.push(Part {
                times: times.trim().parse().ok()?,
                lines: Vec::new(),
            });
        } else if text == "end" {
            parts.push(Part {
                times: 1,
                lines: Vec::new(),
            });
        } else {
            parts.last_mut()?.lines.push(line(text)?);
        }
    }
    Some(parts)
}
