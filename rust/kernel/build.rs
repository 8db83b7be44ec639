//! Lays out the kernel's files, unchanged, beside stand-ins for what they lean on. The folder of the files is `RUST_SOURCES`, or ../shared/docs/src
//! beside the repository.
use std::path::{Path, PathBuf};
use std::{env, fs};

/// The files taken as they are.
const WHOLE: [&str; 15] = [
    "mutex.rs",
    "spinlock.rs",
    "condvar.rs",
    "once.rs",
    "idcounter.rs",
    "memory/frame.rs",
    "memory/tracker.rs",
    "memory/pagetables/settings.rs",
    "arch/aarch64/address.rs",
    "arch/aarch64/memory.rs",
    "arch/aarch64/memory/frame.rs",
    "obj/mod.rs",
    "obj/thread_sync.rs",
    "obj/pages.rs",
    "obj/copy.rs",
];

/// The files with a child module that reads their private fields.
const PROBED: [&str; 4] = ["obj/range.rs", "obj/pagevec.rs", "obj/pages.rs", "obj/copy.rs"];

struct Layout {
    sources: PathBuf,
    stand_in: PathBuf,
    probe: PathBuf,
    out: PathBuf,
}

/// A source by its path in the kernel, or by the flat name that INDEX.md gives it.
fn source(folder: &Path, path: &str) -> PathBuf {
    let flat = format!("src--src--kernel--src--{}.txt", path.replace('/', "--"));
    let found = [folder.join("src/kernel/src").join(path), folder.join(flat)];
    match found.into_iter().find(|p| p.is_file()) {
        Some(p) => p,
        None => panic!("no source {path} under {}", folder.display()),
    }
}

impl Layout {
    fn write(&self, to: &str, text: &str) {
        let to = self.out.join(to);
        fs::create_dir_all(to.parent().unwrap()).unwrap();
        fs::write(to, text).unwrap();
    }

    /// A file of the kernel put at a place in the tree; an edit asked for (`RUST_EDIT`: path, line, token, other token) is made in the copy.
    fn take(&self, path: &str, to: &str) {
        let from = source(&self.sources, path);
        println!("cargo:rerun-if-changed={}", from.display());
        let text = fs::read_to_string(&from).unwrap();
        self.write(to, &marked(path, edited(path, text)));
    }

    fn stand_in(&self, from: &str, to: &str) {
        let from = self.stand_in.join(from);
        self.write(to, &fs::read_to_string(from).unwrap());
    }

    /// A file of the kernel with a child module.
    fn probed(&self, path: &str) {
        let plain = path.replace(".rs", ".original.rs");
        self.take(path, &plain);
        let name = Path::new(path).file_name().unwrap().to_str().unwrap();
        let original = Path::new(&plain).file_name().unwrap().to_str().unwrap();
        let probe = self.probe.join(name);
        let text = format!("include!({original:?});\n\n#[path = {probe:?}]\npub mod probe;\n");
        self.write(path, &text);
    }
}

/// One token of one line made another, where the edit is of this file.
fn edited(path: &str, text: String) -> String {
    let Ok(edit) = env::var("RUST_EDIT") else { return text };
    let parts: Vec<&str> = edit.split(' ').collect();
    let [file, line, from, to] = parts[..] else { panic!("an edit is: file line token token") };
    if file != path {
        return text;
    }
    let line: usize = line.parse().unwrap();
    let mut lines: Vec<String> = text.lines().map(String::from).collect();
    assert!(lines[line - 1].contains(from), "no {from} in line {line} of {path}");
    lines[line - 1] = lines[line - 1].replacen(from, to, 1);
    lines.join("\n")
}

/// Where `RUST_MARKS` is set, a copy in which each block of a branch or a function notes that it was reached.
fn marked(path: &str, text: String) -> String {
    let Some(file) = PROBED.iter().position(|p| *p == path) else { return text };
    if env::var("RUST_MARKS").is_err() {
        return text;
    }
    let opens = |l: &str| {
        let branch = ["if ", "} else", "for ", "while ", "loop ", ") {", ") ->", "{"].iter().any(|w| l.starts_with(w));
        let inside = l.contains(" = if ") || l.contains("=> {") || l.contains(" else {");
        l.ends_with('{') && (branch || inside || l.contains("fn ")) && !l.contains("impl ") && !l.contains("match ")
    };
    let mut out = String::new();
    for (i, l) in text.lines().enumerate() {
        out += l;
        if opens(l.trim_start()) {
            out += &format!(" crate::marks::reach({});", file * 1024 + i + 1);
        }
        out.push('\n');
    }
    out
}

/// All marks that were set: number, file, line.
fn marks(out: &Path) -> String {
    let mut all = String::new();
    for path in PROBED {
        let text = fs::read_to_string(out.join(path.replace(".rs", ".original.rs"))).unwrap();
        for (i, l) in text.lines().enumerate() {
            if let Some((_, rest)) = l.split_once("crate::marks::reach(") {
                all += &format!("{} {path} {}\n", rest.trim_end_matches(");"), i + 1);
            }
        }
    }
    all
}

/// The one function of utils.rs that is needed; the rest of that file needs a compiler that is not stable.
fn lock_two(folder: &Path) -> String {
    let text = fs::read_to_string(source(folder, "utils.rs")).unwrap();
    let from = text.find("pub fn lock_two").expect("lock_two in utils.rs");
    let end = text[from..].find("\n}\n").unwrap() + from + 3;
    text[from..end].to_string()
}

fn main() {
    let here = PathBuf::from(env::var("CARGO_MANIFEST_DIR").unwrap());
    let default = here.join("../../../shared/docs/src");
    let sources = env::var("RUST_SOURCES").map(PathBuf::from).unwrap_or(default);
    println!("cargo:rerun-if-env-changed=RUST_SOURCES");
    println!("cargo:rerun-if-env-changed=RUST_EDIT");
    println!("cargo:rerun-if-env-changed=RUST_MARKS");
    println!("cargo:rerun-if-changed=stand_in");
    println!("cargo:rerun-if-changed=probe");
    let out = PathBuf::from(env::var("OUT_DIR").unwrap()).join("kernel");
    let _ = fs::remove_dir_all(&out);
    let l = Layout { sources, stand_in: here.join("stand_in"), probe: here.join("probe"), out };
    for path in WHOLE {
        match path {
            "arch/aarch64/memory.rs" => l.take(path, "arch/memory/mod.rs"),
            _ if PROBED.contains(&path) => {}
            _ => l.take(path, &path.replace("arch/aarch64", "arch")),
        }
    }
    for path in PROBED {
        l.probed(path);
    }
    l.write("marks.txt", &marks(&l.out));
    for name in ["control", "id", "ties"] {
        l.stand_in(&format!("obj/{name}.rs"), &format!("obj/{name}.rs"));
    }
    l.write("arch/memory/mmio.rs", "");
    l.write("arch/memory/pagetables.rs", "");
    l.stand_in("arch.rs", "arch/mod.rs");
    l.stand_in("memory.rs", "memory/mod.rs");
    l.stand_in("context.rs", "memory/context.rs");
    l.stand_in("pagetables.rs", "memory/pagetables/mod.rs");
    for name in ["interrupt", "pager", "panic", "processor", "random", "syscall", "thread"] {
        l.stand_in(&format!("{name}.rs"), &format!("{name}.rs"));
    }
    l.write("utils.rs", &format!("use crate::mutex::{{LockGuard, Mutex}};\n\n{}\npub use crate::random::quick_random;\n", lock_two(&l.sources)));
    let names = [
        "arch/mod",
        "condvar",
        "idcounter",
        "interrupt",
        "memory/mod",
        "mutex",
        "obj/mod",
        "once",
        "pager",
        "panic",
        "processor",
        "random",
        "spinlock",
        "syscall",
        "thread",
        "utils",
    ];
    let mut root = String::new();
    for name in names {
        let file = l.out.join(format!("{name}.rs"));
        root += &format!("#[path = {file:?}]\npub mod {};\n", name.trim_end_matches("/mod"));
    }
    l.write("tree.rs", &root);
}
