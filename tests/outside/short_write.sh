#!/usr/bin/env bash
# Tests a write to a file that the system cuts short: `add` then answers 35, and `ok` if the write was whole.
# The shell's limit on the size of a file (ulimit -f) cuts the write that crosses it, as a full file system does.
# Build the program first (./cclib --prove), or set CCLIB to a built one.
set -eu
# shellcheck source=bench/words.sh
. "$(dirname "$0")/../../bench/words.sh"
cclib
room

# answer LENGTH: the answer to an `add` of a text of LENGTH bytes over a new library of 40,016 bytes, if files may have 10,240 bytes
answer() {
    printf 'int main(void){}%*s' $(($1 - 16)) '' > "$work/text"
    "$cclib" library "$work/disk" --quiet --format 20000 < /dev/null
    { echo "add a $1"; cat "$work/text"; echo; } | (ulimit -f 10 && "$cclib" library "$work/disk" --quiet || true)
}

[ "$(answer 9000)" = 'ok 1' ] || fail "a whole write is refused: $(answer 9000)"
for length in 10240 12000 19000; do
    [ "$(answer $length)" = 'fault 35 DiskFault' ] || fail "a short write of $length bytes is not told: $(answer $length)"
done
# If the room for a library cannot be taken, no library is made.
said=$(ulimit -f 10 && "$cclib" library "$work/new" --quiet --format 8192 < /dev/null || true)
[ "$said" = 'fault 35 DiskFault' ] || fail "a library is made without its room: $said"
echo "short writes are told"
