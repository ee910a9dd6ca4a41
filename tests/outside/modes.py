#!/usr/bin/env python3
"""Checks that --checked reaches each command that compiles: with it the checked image is stored and printed, and without it the plain one.

modes.py: a program with a wrong index is compiled by `image`, `asm`, `run`, `library` and a server, with and without --checked. The image that a
library or a server stores has to be the one of the same kind that `image` prints, the session's `audit` has to confirm that one and not the other,
and only a plain run ends. Build the program first (./cclib --prove), or set CCLIB to a built one. The status is 1 if something differs."""

import subprocess
import sys

import serve

WILD = "int a[3];\nint main(void)\n{\n  int i;\n  for (i = 0; i <= 3; i++)\n    a[i] = i;\n  return 0;\n}\n"
KINDS = {"plain": [], "checked": ["--checked"]}


def printed(*words, text=""):
    return subprocess.run([serve.PROGRAM, "--quiet", *words], input=text, capture_output=True, text=True, timeout=300, check=False).stdout


def add(name):
    return f"add {name} {len(WILD)}\n{WILD}\n"


def stored_by_library(place, kind, other):
    """The image that a session of one kind stores; that session's audit confirms it, and a session of the other kind does not."""
    lines = place.library(add("wild") + "audit\n", "--format", "1048576", *KINDS[kind])
    serve.must(lines[:2] == ["ok 1", "audit wild confirmed"], f"library, {kind}: {lines}")
    lines = place.library("audit\n", *KINDS[other])
    serve.must(lines[0].startswith("audit wild ") and lines[0] != "audit wild confirmed", f"library, {kind}, audit of the other kind: {lines}")
    return printed("image", place.disk, "wild")


def stored_by_server(place, kind, other):
    place.library("", "--format", "1048576")
    server = place.start(*KINDS[kind])
    place.wait_ready()
    script = subprocess.run([serve.PROGRAM, "submit", place.spool], input=add("wild") + "audit\n", capture_output=True, text=True, timeout=300, check=False)
    place.stop(server)
    lines = script.stdout.split("\n")
    serve.must(lines[0].startswith("ok ") and lines[1] == "audit wild confirmed", f"serve, {kind}: {lines}")
    lines = place.library("audit\n", *KINDS[other])
    serve.must(lines[0] != "audit wild confirmed", f"serve, {kind}, audit of the other kind: {lines}")
    return printed("image", place.disk, "wild")


def main():
    images = {kind: printed("image", *words, text=WILD) for kind, words in KINDS.items()}
    listed = {kind: printed("asm", *words, text=WILD) for kind, words in KINDS.items()}
    serve.must(images["plain"] != images["checked"] and listed["plain"] != listed["checked"], "image, asm: both kinds are one")
    ends = {kind: printed("run", "1000000", *words, text=WILD) for kind, words in KINDS.items()}
    serve.must(ends == {"plain": "exited 0\n", "checked": "going\n"}, f"run: {ends}")
    for kind, other in (("plain", "checked"), ("checked", "plain")):
        for stored in (stored_by_library, stored_by_server):
            place = serve.Place()
            serve.must(stored(place, kind, other) == images[kind], f"{stored.__name__}, {kind}: another image than that of `image`")
    print("image, asm, run, library and serve: each has the images of its kind")


if __name__ == "__main__":
    try:
        main()
    except serve.Wrong as why:
        print(f"WRONG: {why}")
        sys.exit(1)
