#!/usr/bin/env python3
"""Power cuts of a server's folder and its library together, computed from the calls of real runs.

cuts.py [COUNT [SEED]]    16 submitters leave scripts in a server's folder, and some take theirs back because no server is there. strace records the
                          calls of all. Then COUNT (1,000) states are made that a power cut at a random moment may leave: of each folder's calls those
                          that were synced and some of the next ones in their order, both sides of a rename together; of each file what was
                          synced and a part of what was written after it; of the library's file any part of what was not synced. In each state a
                          real server starts, does what waits and is stopped.

Then each unit is there for which a client printed `ok`; no unit is there whose script was taken back (58); no script was done twice (each adds a
unit of its own, so the second time would be refused with 31); each script that waited has an answer or was done; an answer that was in `done` is
unchanged. strace is needed. Anybody can run this, root or not; CCLIB names a program other than this repository's. DROP=new leaves out the syncs
of that folder, to show what they are for."""

import collections
import os
import random
import re
import shutil
import subprocess
import sys
import tempfile
import time

TOP = os.path.dirname(os.path.dirname(os.path.dirname(os.path.abspath(__file__))))
PROGRAM = os.environ.get("CCLIB") or os.path.join(TOP, "crates/cclib/out/cclib")
TEXT = "int f(int x){return x*3;}int main(void){write_word(f(5));return f(2);}"
PARTS = ("new", "tmp", "cur", "done")
CALLS = "openat,open,creat,write,pwrite64,ftruncate,rename,renameat,renameat2,link,linkat,unlink,unlinkat,fsync,fdatasync"
LINE = re.compile(r"^(\d+) +(\w+)\((.*)\) += (-?\d+|\?)(.*)$")
BEGUN = re.compile(r"^(\d+) +(\w+)\((.*) <unfinished \.\.\.>$")
ENDED = re.compile(r"^(\d+) +<\.\.\. (\w+) resumed>(.*)\) += (-?\d+|\?)(.*)$")
TOKEN = re.compile(r'(\w+)?<((?:\\x[0-9a-f]{2})*)>|"((?:\\x[0-9a-f]{2})*)"')

# The commands that are recorded; bash runs them under strace.
DRIVER = """
give_up() { for i in "$@"; do "$P" submit "$F" --wait 1 add "$i" < "$W/text" > "$W/out/$i" & done; wait; }
give_up a1 a2 a3
"$P" serve "$W/disk" "$F" --clients 8 --quiet > "$W/told" & server=$!
sleep 0.5
all=()
for s in {1..16}; do
    for k in 1 2 3 4; do "$P" submit "$F" add "u${s}_$k" < "$W/text" > "$W/out/u${s}_$k"; done & all+=($!)
done
wait "${all[@]}"
touch "$F/stop"
wait $server
give_up b1 b2 b3
"$P" submit "$F" add c1 < "$W/text" > "$W/out/c1" &
sleep 0.3
"$P" serve "$W/disk" "$F" --clients 2 --quiet > "$W/told" & server=$!
sleep 1
touch "$F/stop"
wait
"""


def plain(text):
    """The bytes of a text that strace printed in hexadecimal."""
    return bytes.fromhex(text.replace("\\x", ""))


class Call:
    """A call: when it began and ended, as line numbers of the log; its process; its name, the paths of its descriptors, the strings among its
    words, and its result."""

    def __init__(self, begin, end, process, name, words, result, behind):
        self.begin, self.end, self.process, self.name, self.words, self.result = begin, end, int(process), name, words, result
        self.told = [(it[0], plain(it[1] if it[0] or it[1] else it[2]).decode("utf-8", "surrogateescape") if name not in ("write", "pwrite64") or not it[2] else plain(it[2])) for it in TOKEN.findall(words)]
        self.behind = TOKEN.findall(behind)

    def paths(self):
        """The full paths that the call names."""
        found, at = [], "/"
        for head, text in self.told:
            if head == "AT_FDCWD":
                at = text
            elif not head and isinstance(text, str):
                found.append(os.path.join(at, text))
        return found

    def descriptor(self):
        return next((text for head, text in self.told if head and head != "AT_FDCWD"), None)


def read_log(path):
    """The calls that succeeded, in the order in which they ended."""
    waiting, calls = {}, []
    with open(path, encoding="ascii", errors="replace") as file:
        for at, line in enumerate(file):
            line = line.rstrip("\n")
            if found := BEGUN.match(line):
                waiting[found[1]] = (at, found[3])
            elif found := ENDED.match(line):
                begin, words = waiting.pop(found[1], (at, ""))
                calls.append(Call(begin, at, found[1], found[2], words + found[3], found[4], found[5]))
            elif found := LINE.match(line):
                calls.append(Call(at, at, *found.groups()))
    return [it for it in calls if it.result != "?" and int(it.result) >= 0]


class File:
    """A file: its rights; what was written, with the moment at which each write ended, its offset and its bytes; and its syncs."""

    def __init__(self, mode):
        self.mode, self.writes, self.syncs, self.size = mode, [], [], 0


class Record:
    """What the calls did to each folder and file."""

    def __init__(self, work, spool, calls):
        self.spool, self.disk = spool, File(0o600)
        self.steps = collections.defaultdict(list)
        self.syncs = collections.defaultdict(list)
        self.printed, self.scripts, self.left = {}, {}, {}
        self.last = 0
        names, outs, count = {}, {}, 0
        drop = os.environ.get("DROP")
        for call in calls:
            self.last = call.end
            count += 1
            if call.name in ("openat", "open", "creat"):
                path = (call.paths() or [""])[-1]
                if "O_CREAT" in call.words and path.startswith(spool) and path not in names:
                    mode = re.search(r"(0[0-7]{3})\)?$", call.words)
                    names[path] = File((int(mode[1], 8) if mode else 0o666) & ~0o022)
                    self.step(call, count, [(path, names[path])], [])
            elif call.name in ("write", "pwrite64"):
                path, text = call.descriptor(), call.told[-1][1]
                if path and path.startswith(f"{work}/out/"):
                    outs[call.process] = os.path.basename(path)
                    self.printed.setdefault(os.path.basename(path), []).append((call.end, text))
                file = self.disk if path == f"{work}/disk" else names.get(path)
                if file and isinstance(text, bytes):
                    at = int(call.words.rsplit(",", 1)[1]) if call.name == "pwrite64" else file.size
                    text = text[: int(call.result)]
                    file.writes.append((call.end, at, text))
                    file.size = max(file.size, at + len(text))
            elif call.name.startswith("rename"):
                old, new = call.paths()
                if old in names:
                    names[new] = names.pop(old)
                    self.step(call, count, [(new, names[new])], [old])
            elif call.name.startswith("link"):
                old, new = call.paths()
                if old in names:
                    names[new] = names[old]
                    self.step(call, count, [(new, names[new])], [])
                    if os.path.dirname(new) == f"{spool}/new":
                        self.scripts[os.path.basename(new)] = call.process
            elif call.name.startswith("unlink"):
                path = call.paths()[-1]
                if path in names:
                    names.pop(path)
                    self.step(call, count, [], [path])
            elif call.name in ("fsync", "fdatasync"):
                path = call.descriptor()
                part = os.path.relpath(path, spool) if path and path.startswith(spool) else None
                if part in (*PARTS, ".") and part != drop:
                    self.syncs[part].append((call.begin, call.end))
                    if part == "new" and (name := next((it for it, whose in self.scripts.items() if whose == call.process), None)):
                        self.left.setdefault(name, call.end)
                elif path == f"{work}/disk":
                    self.disk.syncs.append((call.begin, call.end))
                elif path in names:
                    names[path].syncs.append((call.begin, call.end))
        # the unit of each script, by its name in `new`
        self.units = {name: outs[whose] for name, whose in self.scripts.items() if whose in outs}

    def step(self, call, count, made, gone):
        parts = {os.path.relpath(os.path.dirname(path), self.spool) for path, *_ in [*made, *((it,) for it in gone)]}
        step = (count, call.end, parts, made, gone)
        for part in parts:
            self.steps[part].append(step)

    def cut(self, t, draw):
        """How many steps of each folder survive a cut at this moment."""
        counts = {part: sum(end <= t for _, end, *_ in self.steps[part]) for part in (*PARTS, ".")}
        low = {part: max((sum(end < begin for _, end, *_ in self.steps[part]) for begin, synced in self.syncs[part] if synced <= t), default=0) for part in counts}
        # Both sides of a rename are there together.
        at = {part: {step[0]: place for place, step in enumerate(self.steps[part])} for part in counts}
        changed = True
        while changed:
            changed = False
            for part in counts:
                for step in self.steps[part][: low[part]]:
                    for other in step[2]:
                        if low[other] <= at[other][step[0]]:
                            low[other], changed = at[other][step[0]] + 1, True
        cut = {part: draw.choice([low[part], counts[part], draw.randint(low[part], counts[part])]) for part in counts}
        changed = True
        while changed:
            changed = False
            for part in counts:
                for place, step in enumerate(self.steps[part][: cut[part]]):
                    if any(cut[other] <= at[other][step[0]] for other in step[2]):
                        cut[part], changed = place, True
                        break
        return cut

    def names_at(self, cut):
        names = {}
        steps = sorted({step[0]: step for part in cut for step in self.steps[part][: cut[part]]}.values(), key=lambda it: it[0])
        for _, _, _, made, gone in steps:
            for path in gone:
                names.pop(path, None)
            for path, file in made:
                names[path] = file
        return names


def content(file, t, draw, base=b"", is_disk=False):
    """The bytes of a file after a cut: what was synced, and a part of what was written after it."""
    begun = max((begin for begin, end in file.syncs if end <= t), default=-1)
    text = bytearray(base)

    def put(at, some):
        if len(text) < at + len(some):
            text.extend(bytes(at + len(some) - len(text)))
        text[at : at + len(some)] = some

    later = []
    for end, at, some in file.writes:
        if end < begun:
            put(at, some)
        elif end <= t:
            later.append((at, some))
    if is_disk:
        for at, some in later:
            kind = draw.randrange(4)
            if kind == 1:
                put(at, some)
            elif kind == 2:
                put(at, some[: draw.randrange(len(some) + 1)])
            elif kind == 3:
                for place, byte in enumerate(some):
                    if draw.random() < 0.5:
                        put(at + place, bytes([byte]))
    else:
        kept = draw.choice([0, len(later), draw.randint(0, len(later))])
        for at, some in later[:kept]:
            put(at, some)
        if kept < len(later):
            at, some = later[kept]
            put(at, some[: draw.randrange(len(some) + 1)])
    return bytes(text)


def run(words, **more):
    return subprocess.run(words, capture_output=True, text=True, timeout=120, **more)


def record(work):
    """Makes folder and library, records the calls, and returns what they did."""
    spool = f"{work}/spool"
    os.mkdir(f"{work}/out")
    with open(f"{work}/text", "w", encoding="ascii") as file:
        file.write(TEXT)
    run([PROGRAM, "library", f"{work}/disk", "--quiet", "--format", str(1 << 18)], input="")
    serve(f"{work}/disk", spool, ())
    shutil.copytree(spool, f"{work}/base.spool")
    shutil.copy(f"{work}/disk", f"{work}/base.disk")
    words = ["strace", "-f", "-y", "-xx", "-qq", "-s", "1000000", "-e", f"trace={CALLS}", "-o", f"{work}/log", "bash", "-c", DRIVER]
    done = subprocess.run(words, env={**os.environ, "P": PROGRAM, "F": spool, "W": work}, stdin=subprocess.DEVNULL, capture_output=True, timeout=900)
    if done.returncode:
        sys.exit(f"cuts.py: {done.stderr[-500:]!r}")
    return Record(work, spool, read_log(f"{work}/log"))


def serve(disk, spool, parts):
    """Runs a server that does what waits, and stops it. Returns its status."""
    server = subprocess.Popen([PROGRAM, "serve", disk, spool, "--clients", "4", "--quiet"], stdin=subprocess.DEVNULL, stdout=subprocess.PIPE, stderr=subprocess.STDOUT)
    until = time.monotonic() + 8
    while time.monotonic() < until and server.poll() is None:
        if os.path.exists(f"{spool}/lock") and os.path.isdir(f"{spool}/new") and not any(os.listdir(f"{spool}/{it}") for it in parts):
            break
        time.sleep(0.005)
    time.sleep(0.05 if parts else 0.5)
    until = time.monotonic() + 20
    while server.poll() is None and time.monotonic() < until:
        # A `stop` that is made while the server starts may be taken for an old one.
        with open(f"{spool}/stop", "wb"):
            pass
        time.sleep(0.05)
    said = server.communicate(timeout=20)[0]
    return server.returncode, said


def look(seen, t, work, draw):
    """Makes one state and starts a server in it. Returns what is wrong, and what was looked at."""
    state = f"{work}/state"
    shutil.rmtree(state, ignore_errors=True)
    os.mkdir(state)
    shutil.copytree(f"{work}/base.spool", f"{state}/spool")
    with open(f"{work}/base.disk", "rb") as file:
        disk = content(seen.disk, t, draw, file.read(), True)
    with open(f"{state}/disk", "wb") as file:
        file.write(disk)
    os.chmod(f"{state}/disk", 0o600)
    made = {}
    for path, file in seen.names_at(seen.cut(t, draw)).items():
        there = f"{state}/spool/{os.path.relpath(path, seen.spool)}"
        if id(file) in made:
            os.link(made[id(file)], there)
            continue
        with open(there, "wb") as out:
            out.write(content(file, t, draw))
        os.chmod(there, file.mode)
        made[id(file)] = there
    answers = {it: open(f"{state}/spool/done/{it}", "rb").read() for it in os.listdir(f"{state}/spool/done")}
    status, said = serve(f"{state}/disk", f"{state}/spool", ("new", "cur"))
    wrong = [f"the server ended with {status}: {said[-200:]!r}"] * (status != 0)
    listed = run([PROGRAM, "library", f"{state}/disk", "--quiet"], input="list\n").stdout.split("\n")
    units = {it[5:] for it in listed if it.startswith("unit ")}
    wrong += [f"the library says {listed[:2]}"] * (not any(it.startswith("ok ") for it in listed))
    now = {it: open(f"{state}/spool/done/{it}", "rb").read() for it in os.listdir(f"{state}/spool/done")}
    wrong += [f"an answer {text!r} became {now.get(it)!r}" for it, text in answers.items() if now.get(it) != text]
    wrong += [f"a script was done twice: {text!r}" for text in now.values() if b"fault 31" in text]
    told = {unit: b"".join(text for end, text in lines if end <= t) for unit, lines in seen.printed.items()}
    wrong += [f"{unit} was acknowledged, and lacks" for unit, text in told.items() if text.startswith(b"ok ") and unit not in units]
    wrong += [f"{unit} was taken back, and is there" for unit, text in told.items() if text.startswith(b"fault 58") and unit in units]
    for name, unit in seen.units.items():
        if seen.left.get(name, t + 1) <= t and not told.get(unit) and not (unit in units or name in now):
            # A client that takes a script back, or removes an answer, has not printed that yet.
            if not any(end <= t and f"{seen.spool}/{part}/{name}" in gone for part in ("new", "done") for _, end, _, _, gone in seen.steps[part] if end <= t and not is_claim(seen, name, end)):
                wrong.append(f"{unit} waited, and is neither done nor answered")
    return wrong, (sum(it.startswith(b"ok ") for it in told.values()), sum(it.startswith(b"fault 58") for it in told.values()), sum(b"fault 55" in it for it in now.values()))


def is_claim(seen, name, end):
    """Whether the step that ended then took the name from `new` to `cur`."""
    return any(step[1] == end and step[3] for step in seen.steps["new"] if f"{seen.spool}/new/{name}" in step[4])


def main():
    count = int(sys.argv[1]) if len(sys.argv) > 1 else 1000
    draw = random.Random(int(sys.argv[2]) if len(sys.argv) > 2 else 1)
    if not os.access(PROGRAM, os.X_OK) or not shutil.which("strace"):
        sys.exit("cuts.py: needs the program, ./cclib --prove builds it, and strace")
    with tempfile.TemporaryDirectory() as work:
        seen = record(work)
        print(f"recorded: {len(seen.units)} scripts, {sum(map(len, seen.steps.values()))} steps of folders, {len(seen.disk.writes)} writes of the library", flush=True)
        kinds, sums = collections.Counter(), [0, 0, 0]
        for _ in range(count):
            wrong, looked = look(seen, draw.randint(0, seen.last), work, draw)
            kinds.update(re.sub(r"[ab]\d|c1|u\d+_\d+", "U", it) for it in wrong)
            sums = [one + other for one, other in zip(sums, looked)]
    for text, times in kinds.most_common(12):
        print(f"  {times} times: {text}")
    print(f"{count} states: {sums[0]} acknowledged units, {sums[1]} that were taken back, {sums[2]} scripts answered by 55; {sum(kinds.values())} wrong")
    sys.exit(1 if kinds else 0)


if __name__ == "__main__":
    main()
