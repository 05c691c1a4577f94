//! The text of an ENVI header as fields, every byte of a value kept as it stands.

/// A line, or a field over one line or more.
#[derive(Clone, Debug)]
enum Entry {
    /// A remark, or a line that is no field.
    Line(Vec<u8>),
    Field {
        /// All before the value, as it stands.
        lead: Vec<u8>,
        /// The name in small letters, with single blanks.
        name: String,
        value: Vec<u8>,
    },
}

/// The fields of a header, in the order in which they stand.
#[derive(Clone, Debug, Default)]
pub struct Fields(Vec<Entry>);

/// How a value in braces ends. Programs differ where braces stand within braces.
#[derive(Clone, Copy, Debug, PartialEq, Eq)]
pub enum Braces {
    /// At the brace that closes the first.
    Counted,
    /// At the first that closes any.
    First,
}

/// The first line of every header.
pub const FIRST_LINE: &[u8] = b"ENVI";

/// How many braces are still open at the end of a value.
fn is_open(value: &[u8], braces: Braces) -> bool {
    if !value.starts_with(b"{") {
        return false;
    }
    let count = |brace| value.iter().filter(|&&byte| byte == brace).count();
    match braces {
        Braces::Counted => count(b'{') > count(b'}'),
        Braces::First => count(b'}') == 0,
    }
}

/// A line parted where its value begins: behind the blanks from `start` on.
fn parted(line: &[u8], start: usize) -> (Vec<u8>, Vec<u8>) {
    let value = line[start..].trim_ascii_start();
    let lead = &line[..line.len() - value.len()];
    (lead.to_vec(), value.trim_ascii_end().to_vec())
}

/// A name in small letters, with single blanks.
fn plain_name(written: &[u8]) -> String {
    let text = String::from_utf8_lossy(written).to_ascii_lowercase();
    text.split_whitespace().collect::<Vec<&str>>().join(" ")
}

impl Fields {
    /// Takes the text apart: `name = value` lines, where a value in braces may run
    /// over several lines; a line that begins with `;` is a remark.
    pub fn parse(text: &[u8], braces: Braces) -> Result<Fields, String> {
        let mut lines = text.split(|&byte| byte == b'\n').peekable();
        if lines.next().map(<[u8]>::trim_ascii) != Some(FIRST_LINE) {
            return Err("this is no ENVI header: its first line is not ENVI".to_string());
        }
        let mut entries = Vec::new();
        while let Some(line) = lines.next() {
            let equals = line.iter().position(|&byte| byte == b'=');
            let (Some(equals), false) = (equals, line.trim_ascii_start().starts_with(b";")) else {
                entries.push(Entry::Line(line.trim_ascii_end().to_vec()));
                continue;
            };
            let (mut lead, mut value) = parted(line, equals + 1);
            let next = lines.peek().map(|next| next.trim_ascii());
            if let (true, Some([b'{', ..])) = (value.is_empty(), next) {
                let (blanks, braced) = parted(lines.next().unwrap_or_default(), 0);
                lead = [lead.trim_ascii_end(), b"\n", &blanks].concat();
                value = braced;
            }
            while is_open(&value, braces) {
                let next = lines.next().ok_or("a brace is not closed")?;
                value.push(b'\n');
                value.extend(next.trim_ascii_end());
            }
            entries.push(Entry::Field {
                lead,
                name: plain_name(&line[..equals]),
                value,
            });
        }
        // The lines' last end is not a line of its own.
        if let Some(Entry::Line(line)) = entries.last() {
            if line.is_empty() {
                entries.pop();
            }
        }
        let fields = Fields(entries);
        fields.refuse_twice()?;
        Ok(fields)
    }

    /// Refuses a field that is given twice with two values: programs differ in which
    /// they take.
    fn refuse_twice(&self) -> Result<(), String> {
        let all: Vec<(&str, &[u8])> = self.iter().collect();
        for (index, (name, value)) in all.iter().enumerate() {
            let before = all[..index].iter().find(|(known, _)| known == name);
            if let Some((_, first)) = before {
                if first != value {
                    let [first, value] = [first, value].map(|value| shown(value));
                    return Err(format!("{name} is given twice, as {first} and as {value}"));
                }
            }
        }
        Ok(())
    }

    /// The fields by name and value.
    pub fn iter(&self) -> impl Iterator<Item = (&str, &[u8])> {
        self.0.iter().filter_map(|entry| match entry {
            Entry::Line(_) => None,
            Entry::Field { name, value, .. } => Some((name.as_str(), value.as_slice())),
        })
    }

    pub fn get(&self, name: &str) -> Option<&[u8]> {
        self.iter()
            .find(|(known, _)| *known == name)
            .map(|(_, value)| value)
    }

    /// The text of a field that is one word or number; a remark may follow it.
    pub fn word(&self, name: &str) -> Option<String> {
        let value = self.get(name)?;
        let value = value.split(|&byte| byte == b';').next().unwrap_or_default();
        Some(String::from_utf8_lossy(value.trim_ascii()).into_owned())
    }

    /// A field that is a whole number.
    pub fn number<T: std::str::FromStr>(&self, name: &str) -> Result<Option<T>, String> {
        let Some(text) = self.word(name) else {
            return Ok(None);
        };
        let parsed = text.parse();
        parsed.map(Some).map_err(|_| {
            let is_digits = !text.is_empty() && text.bytes().all(|byte| byte.is_ascii_digit());
            let what = if is_digits {
                "is too large"
            } else {
                "is not a whole number"
            };
            format!("{name} = {text} {what}")
        })
    }

    pub fn needed<T: std::str::FromStr>(&self, name: &str) -> Result<T, String> {
        self.number(name)?
            .ok_or_else(|| format!("the field {name} is missing"))
    }

    /// Sets a field: where it stands, or else behind all others.
    pub fn set(&mut self, name: &str, new: &[u8]) {
        let mut is_set = false;
        for entry in &mut self.0 {
            if let Entry::Field {
                name: known, value, ..
            } = entry
            {
                if known == name {
                    *value = new.to_vec();
                    is_set = true;
                }
            }
        }
        if !is_set {
            self.0.push(Entry::Field {
                lead: format!("{name} = ").into_bytes(),
                name: name.to_string(),
                value: new.to_vec(),
            });
        }
    }

    /// Leaves out the fields of which it is said.
    pub fn remove(&mut self, is_out: impl Fn(&str) -> bool) {
        self.0.retain(|entry| match entry {
            Entry::Line(_) => true,
            Entry::Field { name, .. } => !is_out(name),
        });
    }

    /// The text of a header of these fields.
    pub fn text(&self) -> Vec<u8> {
        let mut text = [FIRST_LINE, b"\n"].concat();
        for entry in &self.0 {
            match entry {
                Entry::Line(line) => text.extend(line),
                Entry::Field { lead, value, .. } => {
                    text.extend(lead);
                    text.extend(value);
                }
            }
            text.push(b'\n');
        }
        text
    }
}

/// A value in a message.
fn shown(value: &[u8]) -> String {
    let text = String::from_utf8_lossy(value);
    match text.char_indices().nth(30) {
        Some((end, _)) => format!("{}...", text[..end].trim_end()),
        None => text.into_owned(),
    }
}

/// The parts of a list in braces, parted by commas; nothing if it is no list.
pub fn parts_of(value: &[u8]) -> Option<Vec<Vec<u8>>> {
    let inner = value.strip_prefix(b"{")?.strip_suffix(b"}")?;
    let parts = inner.split(|&byte| byte == b',');
    Some(parts.map(|part| part.trim_ascii().to_vec()).collect())
}

/// A list of parts, in lines that are not too long.
pub fn list_of(parts: &[Vec<u8>]) -> Vec<u8> {
    let mut text = b"{".to_vec();
    let mut width = 0;
    for (index, part) in parts.iter().enumerate() {
        if index > 0 {
            text.push(b',');
            let parting = if width > 70 { b'\n' } else { b' ' };
            width = if width > 70 { 0 } else { width };
            text.push(parting);
        }
        width += part.len() + 2;
        text.extend(part);
    }
    text.push(b'}');
    text
}
