//! Reads the part of TOML that codec files use: tables, arrays of tables, inline tables, arrays, whole numbers and
//! truth values.
use std::collections::BTreeMap;

pub enum Value {
    Number(u64),
    Truth(bool),
    Array(Vec<Value>),
    Table(Table),
}

pub type Table = BTreeMap<String, Value>;

/// A reader of a text, and the place where it stands.
struct Reader<'a> {
    bytes: &'a [u8],
    at: usize,
}

impl Reader<'_> {
    fn peek(&self) -> u8 {
        self.bytes.get(self.at).copied().unwrap_or(0)
    }

    /// Passes spaces, line ends and comments.
    fn skip(&mut self) {
        loop {
            match self.peek() {
                b' ' | b'\t' | b'\r' | b'\n' => self.at += 1,
                b'#' => {
                    while self.peek() != b'\n' && self.peek() != 0 {
                        self.at += 1;
                    }
                }
                _ => return,
            }
        }
    }

    fn expect(&mut self, byte: u8) -> Option<()> {
        self.skip();
        if self.peek() != byte {
            return None;
        }
        self.at += 1;
        Some(())
    }

    fn word(&mut self) -> String {
        let from = self.at;
        while matches!(self.peek(), b'a'..=b'z' | b'A'..=b'Z' | b'0'..=b'9' | b'_') {
            self.at += 1;
        }
        String::from_utf8_lossy(&self.bytes[from..self.at]).into_owned()
    }

    fn array(&mut self) -> Option<Value> {
        let mut values = Vec::new();
        loop {
            self.skip();
            if self.peek() == b']' {
                self.at += 1;
                return Some(Value::Array(values));
            }
            values.push(self.value()?);
            self.skip();
            if self.peek() == b',' {
                self.at += 1;
            }
        }
    }

    fn inline(&mut self) -> Option<Value> {
        let mut table = Table::new();
        loop {
            self.skip();
            if self.peek() == b'}' {
                self.at += 1;
                return Some(Value::Table(table));
            }
            self.entry(&mut table)?;
            self.skip();
            if self.peek() == b',' {
                self.at += 1;
            }
        }
    }

    fn value(&mut self) -> Option<Value> {
        self.skip();
        match self.peek() {
            b'[' => {
                self.at += 1;
                self.array()
            }
            b'{' => {
                self.at += 1;
                self.inline()
            }
            _ => {
                let word = self.word().replace('_', "");
                match (word.as_str(), word.strip_prefix("0x")) {
                    ("true", _) => Some(Value::Truth(true)),
                    ("false", _) => Some(Value::Truth(false)),
                    (_, Some(digits)) => Some(Value::Number(u64::from_str_radix(digits, 16).ok()?)),
                    _ => Some(Value::Number(word.parse().ok()?)),
                }
            }
        }
    }

    fn entry(&mut self, table: &mut Table) -> Option<()> {
        let name = self.word();
        self.expect(b'=')?;
        let value = self.value()?;
        table.insert(name, value);
        Some(())
    }
}

/// The last table of an array of tables, which is begun where it isn't there.
fn last<'a>(table: &'a mut Table, name: &str) -> Option<&'a mut Table> {
    let value = table
        .entry(name.to_string())
        .or_insert_with(|| Value::Array(Vec::new()));
    let Value::Array(values) = value else {
        return None;
    };
    match values.last_mut()? {
        Value::Table(table) => Some(table),
        _ => None,
    }
}

fn begin(table: &mut Table, name: &str) -> Option<()> {
    let value = table
        .entry(name.to_string())
        .or_insert_with(|| Value::Array(Vec::new()));
    let Value::Array(values) = value else {
        return None;
    };
    values.push(Value::Table(Table::new()));
    Some(())
}

/// The tables of a text. `None` where it isn't of the part of TOML that is read.
pub fn read(bytes: &[u8]) -> Option<Table> {
    let mut reader = Reader { bytes, at: 0 };
    let mut top = Table::new();
    let mut depth = 0;
    loop {
        reader.skip();
        match reader.peek() {
            0 => return Some(top),
            b'[' => {
                reader.at += 1;
                reader.expect(b'[')?;
                let name = reader.word();
                if reader.peek() == b'.' {
                    reader.at += 1;
                    let inner = reader.word();
                    begin(last(&mut top, &name)?, &inner)?;
                    depth = 2;
                } else {
                    begin(&mut top, &name)?;
                    depth = 1;
                }
                reader.expect(b']')?;
                reader.expect(b']')?;
            }
            _ => {
                let table = match depth {
                    0 => &mut top,
                    1 => last(&mut top, "codec")?,
                    _ => last(last(&mut top, "codec")?, "node")?,
                };
                reader.entry(table)?;
            }
        }
    }
}

/// A number of a table, or another where it isn't given.
pub fn number(table: &Table, name: &str, default: u64) -> u64 {
    match table.get(name) {
        Some(Value::Number(n)) => *n,
        Some(Value::Truth(truth)) => u64::from(*truth),
        _ => default,
    }
}

/// The values of an array of a table.
pub fn array<'a>(table: &'a Table, name: &str) -> &'a [Value] {
    match table.get(name) {
        Some(Value::Array(values)) => values,
        _ => &[],
    }
}
