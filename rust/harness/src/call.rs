//! Calls as the line program writes them: a code, then fields, high byte first.

#[derive(Clone, Debug, PartialEq, Eq)]
pub enum Call {
    New(u8),
    Drop(u8),
    Write(u8, u32, Vec<u8>),
    Read(u8, u32, u8),
    Add(u8, u32),
    LookUp(u8, u32),
    Copy(u8, u32, u8, u32, u32),
    Shadow(u8, u32, u8, u32, u32),
    Zero(u8, u32, u32),
    Counts,
}

impl Call {
    pub fn bytes(&self) -> Vec<u8> {
        let mut b = Vec::new();
        let word = |b: &mut Vec<u8>, x: u32| b.extend(x.to_be_bytes());
        match self {
            Call::New(o) => b.extend([1, *o]),
            Call::Drop(o) => b.extend([2, *o]),
            Call::Write(o, at, data) => {
                b.extend([3, *o]);
                word(&mut b, *at);
                b.extend(data);
            }
            Call::Read(o, at, n) => {
                b.extend([4, *o]);
                word(&mut b, *at);
                b.push(*n);
            }
            Call::Add(o, p) => {
                b.extend([5, *o]);
                word(&mut b, *p);
            }
            Call::LookUp(o, p) => {
                b.extend([6, *o]);
                word(&mut b, *p);
            }
            Call::Copy(s, from, d, to, n) | Call::Shadow(s, from, d, to, n) => {
                b.extend([if matches!(self, Call::Copy(..)) { 7 } else { 8 }, *s]);
                word(&mut b, *from);
                b.push(*d);
                word(&mut b, *to);
                word(&mut b, *n);
            }
            Call::Zero(o, at, n) => {
                b.extend([9, *o]);
                word(&mut b, *at);
                word(&mut b, *n);
            }
            Call::Counts => b.push(10),
        }
        b
    }

    pub fn line(&self) -> String {
        hex(&self.bytes())
    }

    pub fn parse(line: &str) -> Option<Call> {
        let b = unhex(line)?;
        let word = |i: usize| u32::from_be_bytes(b[i..i + 4].try_into().unwrap());
        Some(match (b.first()?, b.len()) {
            (1, 2) => Call::New(b[1]),
            (2, 2) => Call::Drop(b[1]),
            (3, 6..) => Call::Write(b[1], word(2), b[6..].to_vec()),
            (4, 7) => Call::Read(b[1], word(2), b[6]),
            (5, 6) => Call::Add(b[1], word(2)),
            (6, 6) => Call::LookUp(b[1], word(2)),
            (7, 15) => Call::Copy(b[1], word(2), b[6], word(7), word(11)),
            (8, 15) => Call::Shadow(b[1], word(2), b[6], word(7), word(11)),
            (9, 10) => Call::Zero(b[1], word(2), word(6)),
            (10, 1) => Call::Counts,
            _ => return None,
        })
    }
}

pub fn hex(b: &[u8]) -> String {
    const DIGITS: &[u8; 16] = b"0123456789ABCDEF";
    let mut s = String::with_capacity(2 * b.len());
    for x in b {
        s.push(DIGITS[(x >> 4) as usize] as char);
        s.push(DIGITS[(x & 15) as usize] as char);
    }
    s
}

pub fn unhex(s: &str) -> Option<Vec<u8>> {
    if s.len() % 2 == 1 || !s.bytes().all(|c| c.is_ascii_hexdigit()) {
        return None;
    }
    (0..s.len()).step_by(2).map(|i| u8::from_str_radix(&s[i..i + 2], 16).ok()).collect()
}

/// A list: the frames of the store that it starts from, and its calls.
#[derive(Clone, Debug)]
pub struct List {
    pub frames: usize,
    pub calls: Vec<Call>,
}

impl List {
    pub fn text(&self) -> String {
        let mut s = format!("={:04X}\n", self.frames);
        for c in &self.calls {
            s += &c.line();
            s.push('\n');
        }
        s
    }
}

/// The lists of a text: `=` and the frames in four digits start one; `#` starts a remark.
pub fn lists(text: &str) -> Vec<List> {
    let mut out: Vec<List> = Vec::new();
    for line in text.lines().map(|l| l.split('#').next().unwrap().trim()).filter(|l| !l.is_empty()) {
        match line.strip_prefix('=') {
            Some(n) => out.push(List { frames: usize::from_str_radix(n, 16).unwrap(), calls: Vec::new() }),
            None => {
                let call = Call::parse(line).unwrap_or_else(|| panic!("no call: {line}"));
                out.last_mut().expect("a list starts with =").calls.push(call);
            }
        }
    }
    out
}
