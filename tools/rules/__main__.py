#!/usr/bin/env python3
"""The repository's own rules, which .ci/run checks before any proof.

    tools/rules              every rule: says what breaks one, and ends with 1 if something does
    tools/rules RULE         this one
    tools/rules --planted    puts something that breaks a rule into a copy of the tree, for each rule and each kind of break, and ends with 1
                             if the rule does not see it: a rule that no longer reads anything is as quiet as one that is kept
"""
import os
import shutil
import subprocess
import sys
import tempfile

sys.dont_write_bytecode = True
import edits  # noqa: E402
import lists  # noqa: E402
import map as drawn  # noqa: E402
import pictures  # noqa: E402
import rooms  # noqa: E402
import tour as walked  # noqa: E402
import trace  # noqa: E402
import wording  # noqa: E402

TOP = os.path.dirname(os.path.dirname(os.path.dirname(os.path.abspath(__file__))))
RULES = {
    rule.__name__: rule
    for rule in (
        edits.budget,
        edits.by_hand,
        rooms.rooms,
        rooms.of_proofs,
        rooms.repetitions,
        rooms.documents,
        drawn.drawn_map,
        walked.tour,
        lists.help_texts,
        lists.launcher,
        lists.version,
        lists.programs,
        lists.commands,
        lists.from_help,
        lists.example,
        lists.costs,
        pictures.pictures,
        trace.traced,
        wording.listed_words,
        wording.long_pages,
    )
}

# ---- what is put into a copy of the tree


def changed(path, *pairs, more=""):
    """A text in which the first of each of these words, which it has to have, is replaced, with something more at its end."""
    with open(f"{TOP}/{path}", encoding="utf-8") as file:
        text = file.read()
    for old, new in pairs:
        assert old in text, f"{path} has no {old!r}"
        text = text.replace(old, new, 1)
    return {path: text + more}


def edit_files(crate, many):
    """This many more must-fail edits in a crate."""
    return {f"crates/{crate}/must-fail/planted_{number}.edit": "" for number in range(many)}


WORDS, WORDS_CODE = "crates/cc_words/specs/Words.antt", "crates/cc_words/src/lib.rt"
ROLES, ROLES_CODE = "crates/cc_syntax/specs/internal/Roles.antt", "crates/cc_syntax/src/lib.rt"
DEFINED = "\nplanted : ℕ\nplanted = 7\n"
TAKEN = "\nghost use Rattle.cc_syntax.specs.internal.Roles.{planted};\n\n"
FUNCTION = "pub fn planted() -> u32\n    ensures { result ≡ planted }\n{\n    7\n}\n"
MODEL = "impl Model for Planted {\n    ghost view = { λ it. planted };\n}\n"
LONG = f"\nfn planted() -> u32\n    ensures {{ result ≡ {' + '.join(['1'] * 40)} }}\n{{\n    40\n}}\n"
# Words that docs/STYLE.md advises against, more often than any page has them.
MANY = 400
PRIVATE = "It stands behind.\n" * MANY
# A word that no source has, not even this one.
NOWHERE = "planted" + "nowhere"


def plants():
    """Returns what is planted: a rule, the new texts of files, and what the rule then reports among other things."""
    laws = changed(WORDS, ("\nuse ", "\nuse Rattle.cc_words.proofs.Laws.{planted_law}\nuse "), more="\nplanted : ℕ\nplanted = planted_law\n")
    code = changed(WORDS_CODE, more=f"\nghost use Rattle.cc_words.specs.Words.{{planted}};\n\n{FUNCTION}")
    arrows = "".join(f"use {it}::planted;\n" for it in ("cc_disk", "cc_hex", "cc_screen", "cc_descriptors", "cc_earlier"))
    return [
        ("budget", edit_files("cc_words", 13), "cc_words has"),
        ("budget", {path: "" for number in range(12) for path in edit_files(f"planted_{number}", 12)}, "in all"),
        ("by_hand", changed("crates/cc_syntax/src/parser/settle.rt", ("if waits {", "if waits && true {")), "else_belongs_to_the_outer_if.edit: src/parser"),
        ("rooms", changed(WORDS, more=DEFINED), "Words: planted: no public contract rests on it"),
        ("rooms", changed(ROLES, more=DEFINED) | changed(ROLES_CODE, more=TAKEN + FUNCTION), "Roles: planted: a public contract rests on it"),
        ("rooms", changed(ROLES, more=DEFINED) | changed(ROLES_CODE, more=TAKEN + MODEL), "Roles: planted: the model of a public type rests on it"),
        ("of_proofs", laws | code, "Words: planted: a public contract rests on it, and it takes from cc_words/proofs/Laws"),
        ("repetitions", changed(WORDS_CODE, more=LONG * 4), "4 contracts repeat: result ≡ 1 + 1"),
        ("documents", changed("docs/THREADS.md", more=f"`{NOWHERE}`\n"), f"docs/THREADS.md: {NOWHERE} is not there"),
        ("documents", changed("docs/THREADS.md", more="`src/planted.rt`\n"), "docs/THREADS.md: src/planted.rt is not there"),
        ("documents", changed("docs/THREADS.md", more="`cc_words`: `Planted`\n"), "docs/THREADS.md: cc_words: Planted is not there"),
        ("documents", changed("crates/cc_journal/README.md", more="`append` (`planted`)\n"), "README.md: append (planted) is not there"),
        ("documents", changed("crates/cc_journal/README.md", more="`typed_unit` (`program`)\n"), "README.md: typed_unit (program) is not there"),
        ("drawn_map", changed("docs/ARCHITECTURE.md", ("| 1 | `cc_words` |", "| 2 | `cc_words` |")), "cc_words: layer and arrows"),
        ("drawn_map", changed("docs/ARCHITECTURE.md", ("| 1 | `cc_words` |", "| 1 | `cc_planted` |")), "cc_planted is no crate"),
        ("drawn_map", changed("crates/cc_link/src/lib.rt", more=arrows), "cc_link: more than 8 arrows"),
        ("tour", changed("docs/ARCHITECTURE.md", ("| `Log::append` |", "| `Log::planted` |")), "`Log::planted` is not in cc_journal/src/log.rt"),
        ("tour", changed("docs/ARCHITECTURE.md", ("| `perform` reads", "| `planted` reads")), "`planted` is not in cc_tasks/src/work.rt"),
        ("tour", changed("docs/ARCHITECTURE.md", ("`serve_quietly` (`serving.rt`)", "`serve_quietly` (`attending.rt`)")), "is not in cc_session/src/attending.rt"),
        ("tour", changed("docs/ARCHITECTURE.md", ("calls `Service::over`", "calls `Service::planted`")), "is not in cc_session/src/running.rt"),
        ("tour", changed("docs/ARCHITECTURE.md", ("(`cc_script/src/command.rt`)", "(`cc_script/src/planted.rt`)")), "cc_script/src/planted.rt is not there"),
        ("tour", changed("crates/cc_session/src/telling.rt", ("fn tell_change", "fn planted")), "`tell_change` is not in cc_session/src/telling.rt"),
        ("version", {"VERSION": "9.9.9\n"}, "VERSION and commands.rt"),
        ("help_texts", changed("docs/help.txt", ("\n\n", "\n\nplanted\n\n")), "./cclib --help"),
        ("help_texts", changed("tests/rows/help.rows", ("\n> Commands:\n", "\n> Planted:\n")), "tests/rows/help.rows"),
        ("help_texts", changed("cclib", ('echo "cclib $(cat', 'echo "cclib 9$(cat')), "./cclib --version"),
        ("launcher", changed("cclib", ('is_taken "$@" || exit 2', 'case ${1-} in check | size) ;; esac')), "names commands in its code: check size"),
        ("launcher", changed("cclib", ('is_taken "$@" || exit 2', 'for word in trace; do :; done')), "names commands in its code: trace"),
        ("launcher", changed("cclib", ("$0 == \"Commands:\"", "$0 == \"Planted:\"")), "./cclib planted is not refused"),
        ("launcher", changed("cclib", ("      -*) continue ;;\n", "")), "./cclib --json --quiet check is not built and run"),
        ("launcher", changed("cclib", ("names=$(commands) ", "names=$(commands | head -3) ")), "./cclib call a word is not built and run"),
        ("launcher", changed("docs/help.txt", ("\n  restore ", "\n  planted ")), "the help has no command 'restore'"),
        ("launcher", changed("cclib", ("unpack | serve |", "unpack |")), "./cclib serve a word says"),
        ("launcher", changed("cclib", ('  say "compiled without its proofs', '  : "compiled without its proofs')), "./cclib check a word says ''"),
        ("launcher", changed("cclib", ('[ "${CCLIB-}" != proved ] || only=proved', ":")), "./cclib check with {'CCLIB': 'proved'} runs"),
        ("launcher", changed("cclib", ("--proved) shift; only=proved ;;", "--proved) shift ;;")), "./cclib --proved check with {} runs"),
        ("launcher", changed("cclib", ('*:proved*) exec "$program"', '*:planted*) exec "$program"')), "does not run the proved program alone"),
        ("programs", changed("bench/programs/crc.c", more="/* planted */\n"), "bench/programs/crc.c"),
        ("commands", changed("crates/cc_script/src/command.rt", ('verb == b"list"', 'verb == b"planted"')), "command.rt"),
        ("commands", changed("crates/cc_command_line/src/library.rt", ("\n  list ", "\n  planted ")), "LIBRARY_HELP"),
        ("commands", changed("crates/cc_command_line/src/spool.rt", ("\n  list", "\n  planted")), "SUBMIT_HELP"),
        ("commands", changed("docs/FORMATS.md", ("\n| `list` |", "\n| `planted` |")), "docs/FORMATS.md"),
        ("from_help", changed("docs/cclib.1", more='.\\" planted\n'), "docs/cclib.1"),
        ("from_help", changed("docs/LANGUAGE.md", ("| Command | What it does |\n", "| Command | What it does |\n| planted | |\n")), "docs/LANGUAGE.md"),
        ("costs", changed("docs/GATE.md", ("the two programs ", "the two programs 9")), "docs/GATE.md"),
        ("costs", changed("docs/GATE.md", ("`cc_types`, ", "")), "docs/GATE.md"),
        ("costs", changed("tools/costs.txt", ("\ncc_session ", "\n# cc_session ")), "docs/GATE.md"),
        ("costs", changed("crates.txt", ("\ncc_words:", "\ncc_words:\ncc_planted:")), "tools/costs.txt"),
        ("example", changed("examples/service/README.md", ("```rust\n", "```rust\n// Planted.\n")), "examples/service/README.md"),
        ("pictures", changed("docs/pictures/passes.svg", ("<svg ", "<svg  ")), "docs/pictures/passes.svg is not what"),
        ("pictures", changed("docs/FORMATS.md", ("torn or not, a gate", "planted, a gate")), "docs/pictures/commit.png is not what"),
        ("pictures", changed("docs/ARCHITECTURE.md", ("| .. `drop_faint` |", "| .. `planted` |")), "has the step 'planted'"),
        ("pictures", changed("crates/cc_select/specs/Pair.antt", ("pub KeepsUp", "pub Planted")), "does not define KeepsUp"),
        ("pictures", changed("crates/cc_journal/src/log.rt", ("ensures moments", "ensures planted")), "append has no clause moments"),
        ("traced", changed("docs/TRACE.md", ("(`sized`)", "(`planted`)")), "`size_in` of `cc_size` (`planted`) is not there"),
        ("traced", changed("docs/TRACE.md", ("`tests_link`: `checked`", "`tests_link`: `planted`")), "tests_link: `planted` is not there"),
        ("traced", changed("tests/rows/served.rows", ("\n= two-updates-from-the-same-source\n", "\n= planted\n")), "rows/served::two-updates-from-the-same-source is not there"),
        ("traced", changed("docs/TRACE.md", ("`rows/submitted`", "`rows/planted`")), "rows/planted is not there"),
        ("traced", changed("docs/TRACE.md", ("`cc_log`: `a_log", "`cc_log`: `planted_a_log")), "cc_log: `planted_a_log"),
        ("traced", changed("docs/FIT.md", ("`run_counted` of", "`planted` of")), "docs/FIT.md: `planted` of `cc_runs` is not there"),
        ("traced", changed("README.md", ("\n4. ", "\n5. ")), "README.md has no promise 4"),
        ("listed_words", changed("docs/THREADS.md", more=PRIVATE), "docs/THREADS.md has"),
        ("listed_words", {"docs/PLANTED.md": PRIVATE}, "docs/PLANTED.md has"),
        ("listed_words", changed("crates/cc_words/README.md", more=PRIVATE), "crates/cc_words/README.md has"),
        ("listed_words", changed(WORDS_CODE, more="// It stands behind.\n" * MANY), "crates/cc_words has"),
        ("listed_words", changed(WORDS_CODE, more='const PLANTED: &str = "it stands behind";\n' * MANY), "crates/cc_words has"),
        ("listed_words", changed(WORDS, more="-- It stands behind.\n" * MANY), "crates/cc_words has"),
        ("listed_words", changed("tools/rules/map.py", more="# It stands behind.\n" * MANY), "tools has"),
        ("listed_words", changed("tools/words.txt", more="crates/cc_planted 3\n"), "tools/words.txt has crates/cc_planted"),
        ("long_pages", changed("docs/DISK.md", more="planted " * 50000), "the first pages have"),
        ("long_pages", changed("CHANGELOG.md", more="planted " * 50000), "the later pages have"),
        ("long_pages", changed("crates/cc_words/README.md", more="planted " * 50000), "the READMEs of crates have"),
    ]


# ----


def kept(names):
    """Says what breaks these rules. Returns whether all are kept."""
    broken = 0
    for name in names:
        for it in RULES[name]():
            broken += 1
            print(f"{name}: {it}")
    print(f"{len(names)} rules, broken {broken} times")
    return broken == 0


def seen_in(copy, rule, texts, words):
    """Puts texts into the copy, has the rule read it, and takes them out again. Returns whether it reported these words."""
    for path, text in texts.items():
        os.makedirs(os.path.dirname(f"{copy}/{path}"), exist_ok=True)
        with open(f"{copy}/{path}", "w", encoding="utf-8") as file:
            file.write(text)
    ran = subprocess.run([sys.executable, f"{copy}/tools/rules", rule], stdout=subprocess.PIPE, stderr=subprocess.STDOUT, text=True, check=False)
    for path in texts:
        os.remove(f"{copy}/{path}")
        if os.path.exists(f"{TOP}/{path}"):
            shutil.copy2(f"{TOP}/{path}", f"{copy}/{path}")
    seen = ran.returncode == 1 and any(line.startswith(f"{rule}: ") and words in line for line in ran.stdout.split("\n"))
    if not seen:
        print(f"{rule} does not see what breaks it: {', '.join(texts)}\n{ran.stdout}")
    return seen


def planted():
    """Tries each rule on what breaks it. Returns whether each saw it."""
    with tempfile.TemporaryDirectory() as work:
        copy = f"{work}/tree"
        shutil.copytree(TOP, copy, symlinks=True, ignore=shutil.ignore_patterns(".git", "out"))
        tried = plants()
        missed = [rule for rule, texts, words in tried if not seen_in(copy, rule, texts, words)]
    missed += sorted(set(RULES) - {rule for rule, _, _ in tried})
    print(f"{len(RULES)} rules, {len(tried)} times something that breaks one, not seen: {', '.join(missed) or 'none'}")
    return not missed


if __name__ == "__main__":
    if sys.argv[1:] == ["--planted"]:
        sys.exit(0 if planted() else 1)
    sys.exit(0 if kept(sys.argv[1:] or list(RULES)) else 1)
