#!/usr/bin/env python3
"""How many calls a second a host makes from Python, over a pipe, with one line in hand: it writes a line of words and reads the answer to it
before it writes the next one.

    bench/calls.py PROGRAM [COUNT] [ROUNDS]     PROGRAM is a built cclib; COUNT (20000) calls a round, ROUNDS (5) of them

The unit is a small filter. A Lua that does the same runs beside it, in turn, if `lua5.4` is installed. For each: calls a second by the wall's
clock, the best round; and the microseconds of processor time that its process takes for a call (user and system), the least of the rounds, without
what the process takes to begin and end. Both answer the same numbers, or the status is 1."""

import os
import random
import shutil
import subprocess
import sys
import tempfile
import time

FILTER = """int low[4];
int main(void) {
    int n = read_word();
    int sum = 0;
    int i = 0;
    while (i < n) {
        int sample = read_word();
        if (sample > 1000) sample = 1000;
        low[i & 3] = sample;
        sum = sum + sample;
        i = i + 1;
    }
    write_word(sum);
    write_word(low[0] + low[1] + low[2] + low[3]);
    return 0;
}
"""

LUA = """for line in io.lines() do
    local words = {}
    for word in line:gmatch("%d+") do words[#words + 1] = tonumber(word) end
    local low, sum = {[0] = 0, 0, 0, 0}, 0
    for i = 0, words[1] - 1 do
        local sample = words[i + 2]
        if sample > 1000 then sample = 1000 end
        low[i & 3] = sample
        sum = sum + sample
    end
    io.write(sum, "\\n", low[0] + low[1] + low[2] + low[3], "\\nexited 0\\n\\n")
    io.flush()
end
"""


def lines_of(count):
    """Returns so many lines of words."""
    numbers = random.Random(6)
    for _ in range(count):
        samples = [numbers.randrange(2000) for _ in range(numbers.randrange(1, 9))]
        yield " ".join(map(str, [len(samples), *samples])) + "\n"


class Round:
    """The calls of a round over one process: seconds by the wall's clock, seconds of its processor time, and the answers."""

    def __init__(self, words, lines):
        process = subprocess.Popen(words, stdin=subprocess.PIPE, stdout=subprocess.PIPE, text=True)
        self.answers = []
        start = time.perf_counter()
        for line in lines:
            process.stdin.write(line)
            process.stdin.flush()
            answer = []
            for text in process.stdout:
                if text == "\n":
                    break
                answer.append(text)
            self.answers.append(answer)
        self.wall = time.perf_counter() - start
        process.stdin.close()
        _, status, usage = os.wait4(process.pid, 0)
        process.returncode = os.waitstatus_to_exitcode(status)
        process.stdout.close()
        self.processor = usage.ru_utime + usage.ru_stime


def library_in(folder, program):
    """Makes a library with the filter, and returns its path."""
    path = f"{folder}/units.disk"
    script = f"add filter {len(FILTER)}\n{FILTER}\n"
    done = subprocess.run([program, "library", path, "--format", "65536"], input=script, capture_output=True, text=True)
    if done.stdout != "ok 1\n":
        raise SystemExit(f"the filter was not added: {done.stdout}{done.stderr}")
    return path


def main():
    program, *numbers = sys.argv[1:]
    count, rounds = [int(number) for number in numbers] + [20000, 5][len(numbers) :]
    lines = list(lines_of(count))
    with tempfile.TemporaryDirectory() as folder:
        hosts = {"cclib": [program, "call", library_in(folder, program), "filter", "100000", "--lines"]}
        if shutil.which("lua5.4"):
            with open(f"{folder}/filter.lua", "w", encoding="ascii") as file:
                file.write(LUA)
            hosts["lua5.4"] = ["lua5.4", f"{folder}/filter.lua"]
        idle = {name: min(Round(words, []).processor for _ in range(5)) for name, words in hosts.items()}
        found = {name: [] for name in hosts}
        for _ in range(rounds):
            for name, words in hosts.items():
                found[name].append(Round(words, lines))
    first = found["cclib"][0].answers
    for name, those in found.items():
        wall = min(it.wall for it in those)
        processor = min(it.processor for it in those) - idle[name]
        print(f"{name}: {count / wall:,.0f} calls/s, {1e6 * processor / count:.1f} us of processor time a call")
        if any(it.answers != first for it in those):
            raise SystemExit(f"{name} answers something else")


if __name__ == "__main__":
    main()
