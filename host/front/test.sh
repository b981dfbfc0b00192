#!/usr/bin/env bash
# The front on the proved programs of PERCH_LIBEXEC, target/bin where it isn't set: what is passed on, the status, and the batch. The front
# and the comparison, which writes the logs, are built before (`cargo build --release --workspace` in host/). The last line is
# `front: all as expected`; anything else, with a status other than 0, is a fault.
set -eEuo pipefail
cd "$(dirname "$0")/.."
export PERCH_LIBEXEC=$(realpath "${PERCH_LIBEXEC:-../target/bin}")
here=$PWD/front
examples=$(realpath ../examples)
tools=$PWD/target/release
work=$(mktemp -d)
disk=
trap '[ -z "$disk" ] || umount "$disk"; rm -rf "$work"' EXIT
exec 3>&2
trap 'echo "front: line $LINENO: $BASH_COMMAND" >&3' ERR
mkdir "$work/tmp" "$work/bin"
export TMPDIR=$work/tmp
ln -s "$tools/front" "$work/bin/perch"
ln -s "$tools/front" "$work/bin/player"
PATH=$work/bin:$PATH

fault() { echo "front: $*" >&3; exit 1; }
# ends STATUS COMMAND..: the command ends so.
ends() {
  local status=0 due=$1
  shift
  "$@" || status=$?
  [ "$status" = "$due" ] || fault "\`$*\` ended with $status, not with $due"
}
# as STATUS INPUT PROGRAM WORDS..: the front writes what the program writes, and ends so.
as() {
  local due=$1 input=$2 program=$3
  shift 3
  "$PERCH_LIBEXEC/$program" "$@" <"$input" >"$work/out" 2>"$work/err" || true
  ends "$due" "$program" "$@" <"$input" >"$work/out2" 2>"$work/err2"
  cmp "$work/out" "$work/out2"
  cmp "$work/err" "$work/err2"
}
# says STATUS ERR COMMAND..: the command writes nothing but this line to standard error, and ends so.
says() {
  local due=$1 err=$2
  shift 2
  ends "$due" "$@" >"$work/out" 2>"$work/err"
  cmp "$work/out" /dev/null
  diff "$work/err" <(printf '%s\n' "$err")
}

# Each verb and the player: what they write, and the status.
verbs() {
  cd "$examples"
  for log in first tune sweep drum sample scale; do as 0 $log.log player; done
  for verb in check play fold salvage meter "meter waits" "why 5" "at 5" "vcd 0 5" wav "wav 8000"; do as 0 sweep.log perch $verb; done
  for verb in check play import samples meter "meter waits" "why 5" "at 5" "vcd 0 5" wav interrupts dwell; do as 0 scale.vgm perch $verb; done
  as 0 damaged.log perch salvage
  as 0 /dev/null perch sheet 64 c000 20
  for log in slip damaged; do
    as 1 $log.log player
    for verb in check play fold meter "meter waits" "why 5" "at 5" "vcd 0 5" wav "wav 8000"; do as 1 $log.log perch $verb; done
  done
  for verb in import samples; do as 1 scale.log perch $verb; done
  head -c 100 scale.vgm >"$work/cut.vgm"
  for verb in check play import samples wav; do as 1 "$work/cut.vgm" perch $verb; done
  as 1 /dev/null perch sheet 128 c000 20
  for words in nothing "nothing first.log" "check a b" why "why 05" "why first.log" at "at 05" "vcd 5" "vcd 0 0" "vcd 0 first.log" "wav 08000" "sheet 64 C000 20" "sheet 64 c000 20 1"; do
    as 2 first.log perch $words
  done
  as 3 . player
  as 3 . perch check
}

# A log and a sample memory by name, also one that can be read only once; no folder is left behind.
by_name() {
  cd "$work"
  for log in tune:0 slip:1; do
    (cd "$examples"; "$PERCH_LIBEXEC/player") <"$examples/${log%:*}.log" >text
    ends ${log#*:} player -s "$examples/sample.bin" "$examples/${log%:*}.log" | cmp - text
    ends ${log#*:} player "$examples/${log%:*}.log" -s <(cat "$examples/sample.bin") | cmp - text
  done
  (cd "$examples"; "$PERCH_LIBEXEC/perch" why 600000 <sweep.log) >text
  perch why 600000 "$examples/sweep.log" -s "$examples/sample.bin" | cmp - text
  perch why -s "$examples/sample.bin" 600000 <"$examples/sweep.log" | cmp - text
  (cd "$examples"; "$PERCH_LIBEXEC/perch" wav 8000 <sweep.log) >text
  ends 0 perch wav 8000 "$examples/sweep.log" -s "$examples/sample.bin" | cmp - text
  (cd "$examples"; "$PERCH_LIBEXEC/perch" wav <sweep.log) >text
  ends 0 perch wav -s "$examples/sample.bin" "$examples/sweep.log" | cmp - text
  (cd "$examples"; ends 0 perch meter waits drum.log) | cmp - "$here/../verbs/meter-waits-drum"
  head -c 32767 "$examples/sample.bin" >short.bin
  ends 1 player -s short.bin "$examples/first.log" | cmp - <(printf 'play=1\nrefused=1:0\n')
  ends 1 player "$examples/first.log" >/dev/null
  says 3 "perch: none.log: No such file or directory" perch check none.log
  says 3 "player: none.bin: No such file or directory" player -s none.bin "$examples/first.log"
  says 3 "perch: standard input can't be read" perch check .
  says 2 "player: expected [-s SAMPLE] [LOG]" player a b
  says 2 "player: expected [-s SAMPLE] [LOG]" player -x
  says 2 "perch: expected VERB [-s SAMPLE] [LOG]" perch check -s
  [ -z "$(ls "$TMPDIR")" ] || fault "a folder is left behind"
}

# Texts that aren't whole: a full disk, a reader that goes, a program that is killed or cut short, and one that isn't there.
not_whole() {
  cd "$examples"
  ends 3 timeout 20 player endless.log >/dev/full 2>"$work/err"
  diff "$work/err" <(echo "player: standard output can't be written")
  ends 3 perch check first.log >/dev/full 2>"$work/err"
  diff "$work/err" <(echo "perch: standard output can't be written")
  ends 3 timeout 20 player endless.log 2>"$work/err" > >(head -3 >/dev/null)
  cmp "$work/err" /dev/null
  ends 3 perch fold slip.log 2>/dev/full
  mkdir "$work/broken"
  for body in 'kill -9 $$' 'printf "play=1\nlevel=0:8074\n"' 'printf "play=1\nlevel=0:8074\nstop=1"' 'printf "play=1\nstop=1\n"; kill -9 $$' ':' \
    'echo "library not found" >&2; exit 127'; do
    printf '#!/bin/sh\n%s\n' "$body" >"$work/broken/player"
    chmod +x "$work/broken/player"
    PERCH_LIBEXEC=$work/broken ends 3 player first.log >/dev/null 2>&1
  done
  PERCH_LIBEXEC=$work/none says 3 "perch: $work/none/perch: No such file or directory" perch check first.log
  # A signal reaches the program, and the folder of the sample memory goes.
  player -s sample.bin endless.log >/dev/null & local front=$!
  for k in {1..100}; do [ -e "$TMPDIR"/perch-*/sample.bin ] || sleep 0.05; done
  sleep 0.3
  SECONDS=0
  kill -TERM $front
  ends 143 wait $front
  [ $SECONDS -lt 5 ] || fault "a signal didn't reach the program"
  [ -z "$(ls "$TMPDIR")" ] || fault "a folder is left behind"
}

# Installed, the front finds the programs by its own place.
installed() {
  install -D -t "$work/prefix/libexec/perchpulley" "$PERCH_LIBEXEC/perch" "$PERCH_LIBEXEC/player"
  install -D "$tools/front" "$work/prefix/bin/perch"
  install -D "$tools/front" "$work/prefix/bin/player"
  (unset PERCH_LIBEXEC; cd "$examples"; "$work/prefix/bin/player" first.log; "$work/prefix/bin/perch" check first.log) >"$work/out"
  (cd "$examples"; "$PERCH_LIBEXEC/player" <first.log; "$PERCH_LIBEXEC/perch" check <first.log) | cmp - "$work/out"
}

# 2,001 logs, every other one damaged, and what the player by itself writes for each.
make_logs() {
  mkdir "$work/logs" "$work/due"
  cd "$work/logs"
  "$tools/compare" log-cases 2000 . --seed 5
  rm texts
  { echo log=1; printf 'read=4015\n%.0s' {1..6000}; echo stop=0; } >long.log
  for log in *.log; do
    "$PERCH_LIBEXEC/player" <$log >"$work/due/${log%.log}.play"
    tail -1 "$work/due/${log%.log}.play" | sed "s/^refused=\(.*\)/refused\t${log%.log}\t\1/; s/^stop=\(.*\)/played\t${log%.log}\t\1/"
  done >"$work/due.lines"
  grep -l '^refused=' "$work"/due/* | xargs rm
}

# The same texts and lines with any number of threads; each refusal that a log can have is among them.
batch() {
  cd "$work/logs"
  for threads in 1 8; do
    mkdir "$work/$threads"
    ends 1 perch batch -j $threads -o "$work/$threads" *.log >"$work/$threads.lines" 2>"$work/err"
    cmp "$work/err" /dev/null
    diff -r "$work/due" "$work/$threads"
    sed '$d' "$work/$threads.lines" | cut -f 1-3 | cmp - "$work/due.lines"
    local played=$(ls "$work/due" | wc -l)
    [ "$(tail -1 "$work/$threads.lines")" = "batch=1 played=$played refused=$((2001 - played)) failed=0 kept=0" ]
  done
  cmp "$work/1.lines" "$work/8.lines"
  for number in 4 5 7 8 9 10 14 15 16 17 18 19; do
    grep -q "^refused	[^	]*	$number:[0-9]*	[a-z\`]" "$work/1.lines" || fault "refusal $number didn't come up"
  done
  # the levels and bytes of a line are those of its text
  grep -m 200 ^played "$work/1.lines" | while IFS=$'\t' read -r _ name clocks levels bytes; do
    [ "$levels $bytes" = "$(grep -c ^level= "$work/due/$name.play") $(stat -c %s "$work/due/$name.play")" ] || fault "the line of $name"
  done
  # names on standard input, and the sample memory by name
  mkdir "$work/listed"
  ends 1 perch batch -s sample.bin -o "$work/listed" - < <(ls *.log) | cmp - "$work/1.lines"
  diff -r "$work/due" "$work/listed"
  ends 1 perch batch -r -o "$work/listed" - < <(ls *.log) >"$work/out"
  sed 's/^\(played\t[^\t]*\).*/\1/; s/^played/kept/; s/played=\([0-9]*\)\(.*\)kept=0/played=0\2kept=\1/' "$work/1.lines" | cmp - "$work/out"
  # a log that is younger than its text, and a text that isn't whole, are played again
  sed -i '$d' "$work/listed/000.play"
  touch -d '1 minute' 002.log
  ends 0 perch batch -r -o "$work/listed" 000.log 002.log 004.log >"$work/out"
  diff <(cut -f 1,2 "$work/out") <(printf '%s\n' played$'\t'00{0,2} kept$'\t'004 'batch=1 played=2 refused=0 failed=0 kept=1')
  touch 002.log
  diff -r "$work/due" "$work/listed"
  # a VGM file, with the sample memory that it brings along
  mkdir "$work/vgm"
  "$examples/../host/vgm-example" 2 pal >"$work/drum.vgm"
  ends 0 perch batch -o "$work/vgm" "$work/drum.vgm" >/dev/null
  cmp "$work/vgm/drum.vgm.play" <("$PERCH_LIBEXEC/perch" play <"$work/drum.vgm")
  # a short sample memory is refused with each log
  ends 1 perch batch -s "$work/short.bin" -o "$work/listed" 000.log 001.log | cmp - <(
    printf "refused\t%s\t1:0\tsample memory isn't 32,768 bytes\n" 000 001; echo batch=1 played=0 refused=2 failed=0 kept=0)
}

# What can't be read or written never ends the batch.
failures() {
  cd "$work/logs"
  mkdir "$work/some" other
  cp 000.log other
  local why="No such file or directory"
  ends 3 perch batch -o "$work/some" none.log 000.log other . other/000.log "$(printf 'a\tb')" 001.log >"$work/out"
  { printf "failed\tnone\t$why\n"; grep "	000	" "$work/1.lines"; printf 'failed\tother\tIs a directory\nfailed\t.\tno file has this name\n'
    printf 'failed\t000\tanother log has this name\nfailed\ta?b\tthe name has a control character\n'; grep "	001	" "$work/1.lines"
    echo batch=1 played=1 refused=1 failed=5 kept=0; } | diff "$work/out" -
  [ "$(ls "$work/some")" = 000.play ]
  rm -r other
  # a folder that isn't there, and one that is none
  for folder in none 000.log; do
    ends 3 perch batch -o $folder *.log >"$work/out"
    [ "$(tail -1 "$work/out")" = "batch=1 played=0 refused=$(grep -c ^refused "$work/1.lines") failed=$(ls "$work/due" | wc -l) kept=0" ]
  done
  says 3 "perch: none.bin: No such file or directory" perch batch -s none.bin 000.log
  for words in "" "-r" "-j 0 000.log" "-x 000.log" "000.log -o"; do ends 2 perch batch $words 2>/dev/null; done
  # lines that can't be written: the texts are
  rm "$work"/some/*
  ends 3 perch batch -o "$work/some" 000.log >/dev/full
  cmp "$work/due/000.play" "$work/some/000.play"
  diff <(perch batch - </dev/null) <(echo batch=1 played=0 refused=0 failed=0 kept=0)
}

# A disk that fills: what has no room fails and leaves nothing behind, the rest is played; with room the batch goes on where it was.
full_disk() {
  mkdir "$work/disk"
  if ! mount -t tmpfs -o size=400k none "$work/disk" 2>/dev/null; then echo "front: no small disk can be mounted: not tested"; return; fi
  disk=$work/disk
  cd "$examples"
  ends 3 perch batch -j 2 -o "$disk" tune.log first.log drum.log slip.log sample.log >"$work/out"
  grep -q "^failed	.*	No space left on device$" "$work/out"
  grep -q "^played	first	" "$work/out"
  tail -1 "$work/out" | grep -q "refused=1 failed=[1-3] kept=0"
  [ -z "$(ls "$disk" | grep -v '\.play$')" ] || fault "something is left behind on a full disk"
  for text in "$disk"/*; do player "$(basename "$text" .play).log" | cmp - "$text"; done
  mount -o remount,size=4m "$disk"
  ends 1 perch batch -r -o "$disk" tune.log first.log drum.log slip.log sample.log >"$work/out"
  [ "$(ls "$disk" | wc -l)" = 4 ]
  grep -q "^kept	first$" "$work/out"
  for text in "$disk"/*; do player "$(basename "$text" .play).log" | cmp - "$text"; done
  umount "$disk"
  disk=
}

# Killed at random times and begun again: nothing half-written has a final name, and the end is the same.
killed() {
  mkdir "$work/killed" "$work/whole" "$work/more"
  cd "$work/more"
  for k in {10..49}; do cp "$examples/tune.log" tune$k.log; cp "$examples/drum.log" drum$k.log; done
  cp "$work"/logs/0*.log .
  cp "$examples/sample.bin" .
  touch -d '1 minute ago' *.log
  ends 1 perch batch -o "$work/whole" *.log >"$work/whole.lines"
  local cut=0
  for k in {1..25}; do
    perch batch -j 2 -r -o "$work/killed" *.log >/dev/null & local batch=$!
    sleep 0.0$((RANDOM % 90 + 10))
    { kill -9 $batch && wait $batch; } 2>/dev/null || true
    cut=$((cut + $(ls "$work/killed" | grep -c '\.part$' || true)))
    find "$work/killed" -name '*.play' -printf '%f\n' | while read -r text; do cmp "$work/killed/$text" "$work/whole/$text"; done
    # some texts go again, so that there is work left
    find "$work/killed" -name '*[05].play' -delete
  done
  ends 1 perch batch -j 2 -r -o "$work/killed" *.log >"$work/out"
  diff -r "$work/whole" "$work/killed"
  grep -q ^kept "$work/out"
  grep -q ^played "$work/out"
  echo "front: killed 25 times, $cut texts half-written under their temporary names"
}

# The memory of a thread, from the most that the batch has with 1 and with 8.
memory() {
  cd "$work/more"
  most() {
    perch batch -j $1 -o "$work/whole" *.log >/dev/null & local batch=$! kib=0 now
    while now=$(sed -n 's/^VmHWM:[^0-9]*\([0-9]*\).*/\1/p' /proc/$batch/status 2>/dev/null) && [ -n "$now" ]; do kib=$now; done
    wait $batch || true
    echo $kib
  }
  local one=$(most 1) eight=$(most 8)
  [ $(((eight - one) / 7)) -lt 4096 ] || fault "a thread has $(((eight - one) / 7)) KiB"
  echo "front: $one KiB with 1 thread, $eight KiB with 8"
}

# Progress on a terminal, and none otherwise.
progress() {
  cd "$work/more"
  command -v script >/dev/null || { echo "front: no terminal: progress not tested"; return; }
  script -qec "perch batch -o '$work/whole' *.log >'$work/out'" /dev/null </dev/null >"$work/err" || true
  grep -q "[0-9]* of $(ls *.log | wc -l), [0-9.]* a second, [0-9]*:[0-9][0-9]:[0-9][0-9] left" "$work/err"
  cmp "$work/out" "$work/whole.lines"
}

for part in verbs by_name not_whole installed make_logs batch failures full_disk killed memory progress; do $part; done
echo "front: all as expected"
