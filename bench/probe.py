"""What one turn of each work of crates/bench copies, and how deep it uses the stack: read off the running program by bench/probe.c."""
import bisect
import os
import re
import subprocess
import tempfile

ROOT = os.path.dirname(os.path.dirname(os.path.abspath(__file__)))
PROGRAM = os.path.join(ROOT, "crates/bench/out/bench")
STORE = 24728


def build():
    subprocess.run(["rt", "run"], cwd=os.path.join(ROOT, "crates/bench"), check=True, stdin=subprocess.DEVNULL, stdout=subprocess.DEVNULL)


def symbols():
    """The functions of the program, by their places."""
    out = subprocess.run(["nm", "-n", PROGRAM], capture_output=True, text=True, check=True).stdout
    rows = [line.split(" ", 2) for line in out.splitlines() if line[0] != " "]
    rows = [(int(at, 16), name) for at, kind, name in rows if kind in "tT"]
    return [at for at, _ in rows], [name for _, name in rows]


def logged(turns, folder):
    """The probe's log of a run with so many turns of each work."""
    log = os.path.join(folder, "log")
    with open(log, "wb") as f:
        os.dup2(f.fileno(), 9)
    env = dict(os.environ, LD_PRELOAD=os.path.join(folder, "probe.so"))
    subprocess.run([PROGRAM], input=str(turns), text=True, stdout=subprocess.DEVNULL, env=env, pass_fds=[9], check=True)
    with open(log) as f:
        return f.read().splitlines()


def sections(turns, folder):
    """For each work and fill, in the program's order: what its turns copied, by function and size, and the stack. The work, the frames and the ranges are written
    before the turns are made, and what the turns have shown behind them."""
    places, names = symbols()
    out, last, copies, deep = [], "", {}, 0
    for row in logged(turns, folder):
        kind, _, rest = row.partition(" ")
        if kind == "c":
            at, size, count = rest.split(" ")
            key = (names[bisect.bisect_right(places, int(at, 16) - 1) - 1], int(size))
            copies[key] = copies.get(key, 0) + int(count)
        elif kind == "d":
            deep = int(rest)
        else:
            if re.fullmatch(r"\w+ \d+ \d+ ", last):
                out.append((last.strip(), copies, deep))
            last, copies = rest, {}
    return out


def works():
    """For each work and fill the copies of one turn, those of two turns less those of one, and the stack."""
    with tempfile.TemporaryDirectory() as folder:
        cc = next(c for c in ("cc", "clang", "gcc") if not subprocess.call(["which", c], stdout=subprocess.DEVNULL))
        words = [cc, "-O1", "-fno-builtin", "-shared", "-fPIC", "-o", os.path.join(folder, "probe.so"), os.path.join(ROOT, "bench/probe.c"), "-ldl"]
        subprocess.run(words, check=True)
        one, two = sections(1, folder), sections(2, folder)
    out = []
    for (line, a, deep), (_, b, _) in zip(one, two):
        out.append((line, {k: n - a.get(k, 0) for k, n in b.items() if n > a.get(k, 0)}, deep))
    return out


def frame(body):
    """The stack frame that a function's first instructions make: the return address, pushes, and the frame itself, a large one walked down page by page."""
    size, walked = 8, False
    for words in body[:40]:
        if words.startswith("push"):
            size += 8
        elif m := re.match(r"sub +\$0x([0-9a-f]+),%(rsp|r11)", words):
            # a page of the walk is no more than the frame that was put in r11
            size += 0 if walked and m[1] == "1000" else int(m[1], 16)
            walked = m[2] == "r11"
        elif words.startswith(("call", "ret")):
            break
    return size


def stacks():
    """For each function its frame, and the way down on which it and what it calls use the most stack."""
    code = subprocess.run(["objdump", "-d", "--no-show-raw-insn", PROGRAM], capture_output=True, text=True, check=True).stdout
    own, calls = {}, {}
    for name, text in re.findall(r"^[0-9a-f]+ <([^>]+)>:\n((?:.+\n)+)", code, re.M):
        body = [line.split("\t", 1)[-1] for line in text.splitlines()]
        own[name] = frame(body)
        calls[name] = {m[1] for m in (re.match(r"(?:call|jmp) +[0-9a-f]+ <([^>+]+)>", words) for words in body) if m and m[1] != name}
    deepest = {}

    def down(name):
        if name not in own:
            return 8, [name]
        if name not in deepest:
            size, way = max((down(c) for c in calls[name]), default=(0, []))
            deepest[name] = own[name] + size, [name, *way]
        return deepest[name]

    return {name: (own[name], *down(name)) for name in own}
