#!/usr/bin/env bash
# What a firmware team does with a library of units, from the first `add` to the images for a board: examples/team/team.sh [FOLDER]
#
# Four units are stored, one is replaced, all are listed and audited; source and image of each are taken out, the image is read by objcopy and compared with
# the listing, and, where qemu is there, run on a core that knows nothing of cclib, with the start of start.s and with no more stack than `size` says of the stored unit;
# then once more while a timer interrupts it.
# FOLDER (made, else a temporary one) has the library and the images afterwards. CCLIB names the program, where it is not ./cclib (which takes `proved`). The status is 0 where all is as it should be.
set -euo pipefail
here=$(CDPATH='' cd -- "$(dirname -- "$(readlink -f -- "$0")")" && pwd)
program=${CCLIB:-proved}
[ "$program" != proved ] || program=$here/../../cclib
cclib=$(command -v -- "$program") || { echo "team: no program $program" >&2; exit 1; }
[[ $cclib == /* ]] || cclib=$PWD/$cclib
# All files get short names in the folder: qemu takes a comma of its path for the next option.
if [ $# -gt 0 ]; then
  [[ $1 == /* ]] || set -- "./$1"
  mkdir -p "$1"
  CDPATH='' cd "$1"
else
  out=$(mktemp -d)
  trap 'rm -rf "$out"' EXIT
  cd "$out"
fi
# A library that somebody may have added to is not formatted anew.
[ ! -e team.disk ] || { echo "team: $PWD/team.disk is there: give another folder, or remove it" >&2; exit 1; }
tool=riscv64-unknown-elf

# What each unit reads when it is tried: the check sequence of CRC-16 ("123456789"), three frames, twenty seconds, seven readings.
declare -A words=(
  [checksum]="9 49 50 51 52 53 54 55 56 57"
  [frame]="13 3 17 34 2 51 0 1 1 0 5 17 34 0"
  [lamp]="20 0 0 1 0 0 0 0 0 0 0 0 0 0 0 0 0 0 0 0 0"
  [heater]="7 224 256 300 384 500 250 1000"
)
declare -A source=([checksum]=checksum.c [frame]=frame.c [lamp]=lamp-longer.c [heater]=heater.c)

fail() { echo "team: $1" >&2; exit 1; }

# on_qemu UNIT INPUT [OPTION|FILE]..: runs UNIT.hex on qemu's core with the words of INPUT and the stack of UNIT.size; UNIT.qemu says what it did, as `run` would.
# More files in assembly and options of the linker may follow. `core` has what qemu is given for the core.
core=(-cpu rv32)
on_qemu() {
  local unit=$1 input=$2 end stack status=0 file options=() objects=()
  shift 2
  # The globals' end: the image begins at 0x00010000, and has globals where it goes on beyond 0x00200000.
  end=$((65536 + $(wc -c <"$unit.bin")))
  [ "$end" -gt 2097152 ] || end=2097152
  # So many bytes below 0x00800000 the image has, and none below them.
  stack=$(sed -n 's/^stack //p' "$unit.size")
  # shellcheck disable=SC2086
  { printf '.data\n.globl input\n.balign 4\ninput: .word '; wc -w <<<"$input"; printf '.word %s\n' ${input:-0}; } >input.s
  for file in "$here/start.s" "$here/qemu.s" input.s "$@"; do
    [[ $file != --* ]] || { options+=("$file"); continue; }
    objects+=("$(basename "$file" .s).o")
    $tool-as -march=rv32im_zicsr -mabi=ilp32 "$file" -o "${objects[-1]}"
  done
  $tool-ld --no-relax -m elf32lriscv -e backed -Ttext=0x1000 -Tdata=0x2000 --defsym globals_end=$end --defsym stack_from=$((8388608 - stack)) "${options[@]}" "${objects[@]}" -o start.elf
  timeout 60 qemu-system-riscv32 -M none "${core[@]}" -m 16M -display none -monitor none -serial none \
    -semihosting-config enable=on,target=native,chardev=words -chardev file,id=words,path="$unit.words" \
    -device loader,file="$unit.hex" -device loader,file=start.elf,cpu-num=0 || status=$?
  { od -An -v -w4 -td4 "$unit.words" | tr -d ' '; echo "exited $status"; } >"$unit.qemu"
}

# on_interrupted UNIT INPUT [OPTION|FILE]..: as on_qemu, while ticks.s interrupts the image. Sets `taken` to how many interrupts there were.
on_interrupted() {
  local core=(-cpu "rv32,pmu-num=16,sscofpmf=on" -icount "shift=0")
  on_qemu "$@" "$here/ticks.s" --wrap=end_with
  taken=$(tail -n 2 "$1.qemu" | head -n 1)
  { head -n -2 "$1.qemu"; tail -n 1 "$1.qemu"; } >without
  mv without "$1.qemu"
}

# put COMMAND NAME FILE: a command of a script with the text that it takes
put() { printf '%s %s %d\n' "$1" "$2" "$(wc -c <"$here/$3")"; cat "$here/$3"; echo; }

echo "== stored"
{ put add checksum checksum.c; put add frame frame.c; put add lamp lamp.c; put add heater heater.c; } | "$cclib" library team.disk --format 262144

echo "== replaced, listed, audited"
{ put replace lamp lamp-longer.c; echo list; echo audit; } | "$cclib" library team.disk

for unit in checksum frame lamp heater; do
  echo "== $unit"
  "$cclib" source team.disk $unit | cmp - "$here/${source[$unit]}" || fail "the source of $unit is another one"
  "$cclib" image team.disk $unit >"$unit.hex"
  "$cclib" asm <"$here/${source[$unit]}" >"$unit.lst"
  "$cclib" size team.disk $unit | tee "$unit.size"
  # shellcheck disable=SC2086
  "$cclib" run 100000 ${words[$unit]} <"$here/${source[$unit]}" | tee "$unit.said"
  command -v $tool-objcopy >/dev/null || { echo "team: no $tool-objcopy here: the image is not compared" >&2; continue; }

  # The code's words by objcopy are those of the listing.
  $tool-objcopy -I ihex -O binary "$unit.hex" "$unit.bin"
  lines=$(wc -l <"$unit.lst")
  cmp <(cut -d' ' -f2 "$unit.lst") <(head -c $((4 * lines)) "$unit.bin" | od -An -v -w4 -tx4 | tr -d ' ') || fail "the image of $unit is not its listing"
  command -v qemu-system-riscv32 >/dev/null || { echo "team: no qemu-system-riscv32 here: the image is not run on another core" >&2; continue; }

  on_qemu "$unit" "${words[$unit]}"
  cmp "$unit.said" "$unit.qemu" || fail "$unit does something else on qemu's core"
  echo "(the same on qemu's core, with $(sed -n 's/^stack //p' "$unit.size") bytes of stack)"
  on_interrupted "$unit" "${words[$unit]}"
  cmp "$unit.said" "$unit.qemu" || fail "$unit does something else on qemu's core when interrupts come"
  echo "(the same with $taken interrupts)"
done

# Requests and answers: each word that plant.c writes asks for one. The simulator gets an answer more each time, since a run that has not read to the
# end of its input is the run on each longer one.
echo "== plant"
"$cclib" image --size <"$here/plant.c" >plant.lines
sed '/^:/!d' plant.lines >plant.hex
sed '/^:/d' plant.lines >plant.size
answers=() tenths=200
while "$cclib" run 100000 "${answers[@]}" <"$here/plant.c" >plant.said && [ "$(wc -l <plant.said)" -gt $((${#answers[@]} + 1)) ]; do
  power=$(sed -n "$((${#answers[@]} + 1))p" plant.said)
  tenths=$((tenths + ((4 * power - tenths + 200) >> 3)))
  answers+=("$tenths")
done
tail -n 1 plant.said
command -v $tool-objcopy >/dev/null && command -v qemu-system-riscv32 >/dev/null || exit 0
$tool-objcopy -I ihex -O binary plant.hex plant.bin
on_qemu plant "" "$here/plant.s" --wrap=write_word --wrap=read_word
cmp plant.said plant.qemu || fail "plant does something else on qemu's core"
echo "(each of ${#answers[@]} requests was answered on qemu's core)"
on_interrupted plant "" "$here/plant.s" --wrap=write_word --wrap=read_word
cmp plant.said plant.qemu || fail "plant does something else on qemu's core when interrupts come"
echo "(the same with $taken interrupts)"

# A longer run: each reading that the heater can get.
echo "== heater, all readings"
readings="1024 $(seq -s ' ' 0 1023)"
# shellcheck disable=SC2086
"$cclib" run 1000000 $readings <"$here/heater.c" >heater.said
on_qemu heater "$readings"
cmp heater.said heater.qemu || fail "heater does something else on qemu's core"
on_interrupted heater "$readings"
cmp heater.said heater.qemu || fail "heater does something else on qemu's core when interrupts come"
[ "$taken" -ge 1000 ] || fail "only $taken interrupts came"
tail -n 1 heater.said
echo "(the same on the core of qemu, and there with $taken interrupts)"
