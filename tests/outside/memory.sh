#!/usr/bin/env bash
# Refuses each allocation in turn, and checks the result: memory.sh TASK. A `malloc` put in front of the C library's (refuse.c) refuses allocation
# number N, for every N until a run ends before that allocation.
#   program   `check` and `interpret` of tests/outside/memory.c, of the programs of examples/ and of texts at the limits, `run` and `asm` of a text with two
#             functions and 24 locals: each answer is the usual one, or `fault 40 OutOfMemory` with status 1
#   compile, list, store, service   a test: a compilation (40, and the next one is as always); an addition to the instruction list (it hands its item back,
#             leaves the list as it was, and goes through when it is made again); a change of the library (40, the map as before, no device call);
#             a service's `add`, with its text handed in first or not (40, or 41 if the allocation was the worker's; all is as before, and the same
#             call then goes as always). A refusal in what the test makes for itself ends the test earlier. No run may hang
#   session, server   session.py refuse: a session of `cclib library`; fails.py memory: a server and its workers under two `submit`s
# Build the program first (./cclib --prove), or set CCLIB to a built one, and build the tests (rt test in the crate); gcc makes the `malloc`.
set -eu
# shellcheck source=bench/words.sh
. "$(dirname "$0")/../../bench/words.sh"
room
total=0 refused=0

# refusing NUMBER COMMAND..: runs the command with that allocation refused, for at most a minute; $work/told has a word if it ended before that
# allocation
refusing() {
    local number=$1
    shift
    : > "$work/told"
    timeout 60 env REFUSED=$number LD_PRELOAD="$work/refuse.so" "$@" > "$work/found" 2> "$work/error" 3> "$work/told"
}

# sweep FILE WORD..: refuses each allocation of the program in turn
sweep() {
    local file=$1 status=0 number=0 found
    shift
    "$cclib" "$@" < "$file" > "$work/usual" 2> /dev/null || status=$?
    while :; do
        number=$((number + 1)) found=0
        refusing $number "$cclib" "$@" < "$file" || found=$?
        [ ! -s "$work/told" ] || break
        total=$((total + 1))
        if [ "$found" -eq 1 ] && [ "$(cat "$work/found")" = 'fault 40 OutOfMemory' ]; then
            refused=$((refused + 1))
        elif [ "$found" -ne "$status" ] || ! cmp -s "$work/usual" "$work/found"; then
            fail "$(basename "$file") $*: allocation $number gave status $found: $(head -c 200 "$work/found")"
        fi
    done
    echo "$(basename "$file") $*: $((number - 1)) allocations"
}

program() {
    cclib
    printf 'int main(void){%s1;}' "$(printf '~%.0s' $(seq 511))" > "$work/operators.c"
    printf 'int main(void){%s%s}' "$(printf '{%.0s' $(seq 63))" "$(printf '}%.0s' $(seq 63))" > "$work/blocks.c"
    : > "$work/nothing.c"
    printf '/*' > "$work/unclosed.c"
    for file in "$top"/tests/outside/memory.c "$top"/examples/*.c "$work"/*.c; do
        sweep "$file" check
        sweep "$file" interpret 100000 3 4294967295 4 0
    done
    sweep "$work/nothing.c" interpret ten
    # The passes of the compiler and the machine.
    {
        printf 'int f(int x){return x;}int main(void){'
        for v in $(seq 24); do printf 'int v%d=read_word();' "$v"; done
        printf 'write_word(f(0));write_word(v1'
        for v in $(seq 2 24); do printf '+v%d' "$v"; done
        printf ');}'
    } > "$work/locals.c"
    sweep "$work/locals.c" run 10000 $(seq 24)
    sweep "$work/locals.c" asm
    echo "$total allocations refused, $refused times fault 40, else the usual answer"
}

# a_test CRATE NAME REASONS: refuses each allocation of a test in turn; the test has to pass, or to end for a reason that it does not test
a_test() {
    local tests=$top/crates/$1/out/$1_tests number=0 status
    [ -x "$tests" ] || fail "build the tests first: (cd crates/$1 && rt test)"
    while :; do
        number=$((number + 1)) status=0
        refusing $number "$tests" "$2" || status=$?
        [ ! -s "$work/told" ] || break
        if [ "$status" -eq 0 ]; then
            refused=$((refused + 1))
        elif ! grep -qE "^error: (${3}Alloc(Error|Failed))" "$work/error"; then
            fail "allocation $number: status $status, $(head -c 200 "$work/error")"
        fi
    done
    echo "$((number - 1)) allocations refused, $refused of them in what is tried: 40 or 41 and all as before"
}

gcc -shared -fPIC -O1 -o "$work/refuse.so" "$top/tests/outside/shims/refuse.c" -ldl
case ${1:-} in
    program) program ;;
    compile) a_test tests_link tests::memory::every_growth_of_compile '' ;;
    list) a_test tests_passes tests::list::a_refused_growth_hands_the_item_back '' ;;
    store) a_test tests_store library::memory::every_growth_comes_before_the_device '"not (opened|added)"|' ;;
    service)
        for name in every_growth_of_an_add every_growth_of_a_put_ahead; do
            refused=0
            a_test tests_service running::memory::$name '"(not opened|no workers|no memory)"|OutOfMemory|'
        done ;;
    session) python3 "$top/tests/outside/session.py" refuse "$work" ;;
    server) python3 "$top/tests/outside/fails.py" memory ;;
    *) fail "program, compile, list, store, service, session or server" ;;
esac
