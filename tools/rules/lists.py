"""What is in two places is the same in both: texts that the program, its script, its tests and its documents each have for themselves."""
import os
import re
import shutil
import subprocess
import tempfile

TOP = os.path.dirname(os.path.dirname(os.path.dirname(os.path.abspath(__file__))))
PROGRAMS = "crates/tests_texts/src/programs.rt"
COMMANDS = "crates/cc_script/src/commands.rt"


def read(path):
    with open(f"{TOP}/{path}", encoding="utf-8") as file:
        return file.read()


def said(*words):
    """Returns what a command of the repository prints."""
    return subprocess.run([f"{TOP}/{words[0]}", *words[1:]], check=True, stdout=subprocess.PIPE, text=True).stdout


def found(pattern, text):
    """Returns what a pattern finds in a text, in which it occurs once."""
    (one,) = re.findall(pattern, text, re.M | re.S)
    return one


def differ(where, one, other):
    """Returns the first place where two texts or lists differ, as a complaint, or none."""
    one, other = (it.split("\n") if isinstance(it, str) else list(it) for it in (one, other))
    for at in range(max(len(one), len(other))):
        pair = [it[at] if at < len(it) else None for it in (one, other)]
        if pair[0] != pair[1]:
            return [f"{where}, line {at + 1}: {pair[0]!r} and {pair[1]!r}"]
    return []


def help_texts():
    """What ./cclib says about itself without a build is what cases of tests/rows/help.rows require of the program; its own words follow."""
    cases = read("tests/rows/help.rows")
    wanted = [re.sub("^> ?", "", found(rf"^\$ {option}\n((?:>[^\n]*\n)+)", cases), flags=re.M) for option in ("--help", "--version")]
    wrong = differ("./cclib --help and tests/rows/help.rows", said("cclib", "--help").partition("\nIn the folder of its sources:\n")[0], wanted[0])
    return wrong + differ("./cclib --version and tests/rows/help.rows", said("cclib", "--version"), wanted[1])


def of_help():
    """Returns the commands that docs/help.txt names."""
    return re.findall(r"^  ([a-z]+) ", found(r"^Commands:\n(.*?)\n\n", read("docs/help.txt")), re.M)


def listed_by(launcher):
    """Returns the commands that the launcher names in its code, apart from comments and messages. Two places may name some: `./cclib help`
    is answered without a build, and `writes` names those that write files."""
    code = re.sub(r"^writes\(\) \{\n.*?^\}\n", "", launcher, flags=re.M | re.S)
    code = re.sub(r"(^|\s)#.*$", "", code, flags=re.M)
    code = re.sub(r'"[^"]*"|--[a-z]+', "", code).replace("-h | help)", "")
    return sorted(set(of_help()) & set(re.findall(r"[a-z]+", code)))


def start(folder, kit, words, **more):
    """Returns the status, the output and the messages of the launcher in this folder."""
    how = {"stdin": subprocess.DEVNULL, "stdout": subprocess.PIPE, "stderr": subprocess.PIPE}
    how["env"] = {**os.environ, "CCLIB": "", "PATH": f"{kit}:{os.environ['PATH']}", **more}
    done = subprocess.run([f"{folder}/cclib", *words], text=True, check=False, **how)
    return done.returncode, done.stdout, done.stderr


BUILD = """#!/bin/sh
cd "$(dirname "$0")/UP" && mkdir -p out/rlib && printf '#!/bin/sh\\necho "MARK$*"\\n' > out/PROGRAM && chmod +x out/PROGRAM
"""
UNCHECKED, STAYS = "proofs, which have not been checked here", "what it writes stays"
# The commands that write files.
WRITERS = {"library", "add", "replace", "withdraw", "compact", "unpack", "serve", "submit", "restore", "copy"}


def started_anew(clone, kit, words, **more):
    """Returns what the launcher does with these words before anything is built."""
    shutil.rmtree(f"{clone}/crates/cclib/out", ignore_errors=True)
    return start(clone, kit, words, **more)


def without_proofs(clone, kit):
    """The launcher compiles and runs what docs/help.txt names, after options too, and says that nothing is proved, and of each command that
    writes files that this stays. It refuses all else, and anything if only the proved program is asked for."""
    wrong = []
    for words in [[it, "a word"] for it in of_help()] + [["--json", "--quiet", "check"]]:
        status, out, errors = started_anew(clone, kit, words)
        if (status, out) != (0, f"unproved {' '.join(words)}\n"):
            wrong.append(f"./cclib {' '.join(words)} is not built and run")
        elif errors.count("\n") != 1 or UNCHECKED not in errors or (STAYS in errors) != (words[0] in WRITERS):
            wrong.append(f"./cclib {' '.join(words)} says {errors!r}")
    for words in (["planted"], ["--json", "planted"], []):
        if started_anew(clone, kit, words)[:2] != (2, ""):
            wrong.append(f"./cclib {' '.join(words)} is not refused")
    for words, more in ((["--proved", "check"], {}), (["check"], {"CCLIB": "proved"}), (["--quick", "check"], {"CCLIB": "proved"})):
        if started_anew(clone, kit, words, **more)[:2] != (1, ""):
            wrong.append(f"./cclib {' '.join(words)} with {more} runs what is not proved")
    return wrong


def launcher():
    """./cclib has no list of commands but that of those which write files. It runs the program without proofs, and says so, until ./cclib --prove
    has built the proved one. Stand-ins build both."""
    names = listed_by(read("cclib"))
    wrong = [f"cclib names commands in its code: {' '.join(names)}"] if names else []
    wrong += [f"the help has no command '{it}', which writes files" for it in sorted(WRITERS - {*of_help()})]
    with tempfile.TemporaryDirectory() as work:
        clone, kit = f"{work}/clone", f"{work}/kit"
        for folder in (f"{clone}/docs", f"{clone}/tools", f"{clone}/crates/cclib/src", kit):
            os.makedirs(folder)
        for name in ("cclib", "VERSION", "crates.txt", "docs/help.txt"):
            shutil.copy(f"{TOP}/{name}", f"{clone}/{name}")
        proves = BUILD.replace("UP", "crates/cclib").replace("MARK", "").replace("PROGRAM", "cclib")
        compiles = BUILD.replace("UP", "../crates/cclib").replace("MARK", "unproved ").replace("PROGRAM", "rlib/cclib-unproved")
        for path, script in ((f"{clone}/prove-below", proves), (f"{clone}/tools/unproved", compiles), (f"{kit}/rt", "#!/bin/sh\n")):
            with open(path, "w", encoding="utf-8") as file:
                file.write(script)
            os.chmod(path, 0o755)
        wrong += without_proofs(clone, kit)
        if started_anew(clone, kit, ["--prove"])[0] or start(clone, kit, ["check", "a word"]) != (0, "check a word\n", ""):
            wrong.append("./cclib check after ./cclib --prove does not run the proved program alone")
        if start(clone, kit, ["--quick", "check"])[:2] != (0, "unproved check\n"):
            wrong.append("./cclib --quick check after ./cclib --prove runs another program")
    return wrong


def version():
    """The version is in VERSION; the program and what ./cclib says without a build have the same."""
    code = read("crates/cc_command_line/src/commands.rt")
    return differ("VERSION and commands.rt", read("VERSION").strip(), found(r'^        \.version\("(.*?)"\)$', code))


def programs():
    """Programs of bench/programs that the tests have too are the same."""
    wrong, texts = [], re.findall(r'^pub const (\w+): &str =\s*"(.*?)^";$', read(PROGRAMS), re.M | re.S)
    for name, text in texts:
        wrong += differ(f"{PROGRAMS}, {name}, and bench/programs/{name.lower()}.c", text, read(f"bench/programs/{name.lower()}.c"))
    return wrong or ([] if len(texts) > 3 else [f"{PROGRAMS} has {len(texts)} programs"])


def in_help(name, file):
    """Returns the commands that a help text shows."""
    text = found(rf'^(?:pub(?:\(crate\))? )?const {name}: &str = "\\\n(.*?)";$', read(f"crates/cc_command_line/src/{file}.rt"))
    return re.findall(r"^  ([a-z]+(?: [A-Z]+)*)(?:  .*)?$", text, re.M)


def commands():
    """The commands of a script are in one list: what reads a line, the help of two commands and the table of docs/FORMATS.md have
    these."""
    text = read(COMMANDS)
    listed = re.findall(r'^    b"(.*)",$', found(r"^pub const COMMANDS(.*?)^\];$", text), re.M)
    plain = int(found(r"^pub const PLAIN_COMMANDS: usize = (\d+);$", text))
    table = found(r"^## A session's script$(.*?)^## ", read("docs/FORMATS.md"))
    verbs = re.findall(r'verb == b"([a-z]*)"', read("crates/cc_script/src/command.rt"))
    wrong = differ(f"{COMMANDS} and command.rt", sorted(it.split()[0] for it in listed), sorted(verbs))
    wrong += differ(f"{COMMANDS} and LIBRARY_HELP", listed[:plain], in_help("LIBRARY_HELP", "library"))
    wrong += differ(f"{COMMANDS} and SUBMIT_HELP", [it.removesuffix(" OLDLEN NEWLEN").removesuffix(" LEN") for it in listed], in_help("SUBMIT_HELP", "spool"))
    return wrong + differ(f"{COMMANDS} and docs/FORMATS.md", listed, re.findall(r"^\| `([a-z]+(?: [A-Z]+)*)` \|", table, re.M))


def from_help():
    """The manual page and the table of docs/LANGUAGE.md are made from the help."""
    wrong = differ("docs/from-help man and docs/cclib.1", said("docs/from-help", "man"), read("docs/cclib.1"))
    table = found(r"^(\| Command \| What it does \|\n(?:\|[^\n]*\n)*)", read("docs/LANGUAGE.md"))
    return wrong + differ("docs/from-help table and docs/LANGUAGE.md", said("docs/from-help", "table"), table)


def example():
    """The program that examples/service shows is a test of tests_service."""
    shown = found(r"^```rust\n(.*?)^```$", read("examples/service/README.md"))
    test = found(r"^(fn two_clients_add_one_name.*?)\n#\[test\]$", read("crates/tests_service/src/running/calls.rt"))
    return differ("examples/service/README.md and tests_service", shown, test)


def costs():
    """The sums and the longest chain that docs/GATE.md has are those of tools/costs.txt, which has each crate."""
    chain, whole, unknown = said("bench/gate.py", "--chain").splitlines()
    page = " ".join(read("docs/GATE.md").split())
    there = found(r"\*\*The longest chain\*\* of proofs, (.*?), with the edits", page)
    wrong = differ("bench/gate.py --chain and docs/GATE.md", re.sub(r" \d+(, |$)", r"\1", found(r"^the longest chain, (.*)$", chain)), there.replace("`", ""))
    wrong += differ("bench/gate.py --chain and docs/GATE.md", found(r"^the sum, (.*)$", whole), found(r"\*\*The sum\*\*, (.*?)\. - \*\*", page))
    return wrong + differ("crates.txt and tools/costs.txt", unknown, "not in tools/costs.txt: none")
