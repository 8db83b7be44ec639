//! What is compared after each call: the ranges of each object, its present pages with their frames, and a hash of each page's bytes.
use std::fmt::Write;

#[derive(Clone, Debug, PartialEq, Eq)]
pub struct RangeView {
    pub start: usize,
    pub length: usize,
    pub offset: usize,
    /// the backing, named by its first holder: that one's place in the table
    pub backing: usize,
    pub shared: bool,
}

#[derive(Clone, Debug, PartialEq, Eq)]
pub struct PageView {
    pub page: usize,
    pub frame: usize,
    pub hash: u64,
}

#[derive(Clone, Debug, PartialEq, Eq)]
pub struct ObjectView {
    pub name: usize,
    pub ranges: Vec<RangeView>,
    pub pages: Vec<PageView>,
}

#[derive(Clone, Debug, PartialEq, Eq, Default)]
pub struct View {
    pub objects: Vec<ObjectView>,
}

/// The hash of a page: 0 for zeros. Each byte counts with an odd factor, so one byte changed always shows.
pub fn hash(bytes: &[u8]) -> u64 {
    bytes.iter().fold(0, |h, b| (h + *b as u64) * 65521 % (1 << 48))
}

impl View {
    /// Each object, each of its ranges, and behind each range its present pages by frame.
    pub fn text(&self) -> String {
        let mut s = String::new();
        for o in &self.objects {
            writeln!(s, "o {:02x}", o.name).unwrap();
            for r in &o.ranges {
                let shared = if r.shared { 's' } else { 'p' };
                writeln!(s, "r {:05x} {:05x} {:05x} {:03x} {}", r.start, r.length, r.offset, r.backing, shared).unwrap();
                let mut pages: Vec<&PageView> = o.pages.iter().filter(|p| r.start <= p.page && p.page < r.start + r.length).collect();
                pages.sort_by_key(|p| p.frame);
                for p in pages {
                    writeln!(s, "p {:05x} {:03x} {:012x}", p.page, p.frame, p.hash).unwrap();
                }
            }
        }
        s
    }

    pub fn sort(&mut self) {
        for o in &mut self.objects {
            o.pages.sort_by_key(|p| p.page);
        }
    }

    /// One line of the text taken in.
    pub fn line(&mut self, line: &str) -> Option<()> {
        let mut f = line.split(' ');
        let kind = f.next()?;
        let mut number = || u64::from_str_radix(f.next()?, 16).ok();
        match kind {
            "o" => self.objects.push(ObjectView { name: number()? as usize, ranges: Vec::new(), pages: Vec::new() }),
            "r" => {
                let [start, length, offset, backing] = [number()?, number()?, number()?, number()?].map(|x| x as usize);
                let shared = f.next()? == "s";
                self.objects.last_mut()?.ranges.push(RangeView { start, length, offset, backing, shared });
            }
            "p" => {
                let [page, frame, hash] = [number()?, number()?, number()?];
                self.objects.last_mut()?.pages.push(PageView { page: page as usize, frame: frame as usize, hash });
            }
            _ => return None,
        }
        Some(())
    }
}
