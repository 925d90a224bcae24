#!/usr/bin/env bash
# Lines a second of `drive` on scripts of submit, send and recv over one session, with the answers in between.
# usage: bench/drive.sh PROGRAM   (the built crates/openiscsi/out/openiscsi)
set -eu
program=$1
folder=$(mktemp -d)
trap 'rm -rf "$folder"' EXIT

# So many exchanges of three lines: a READ CAPACITY, its command, its Data-In with status.
script() {
  awk -v n="$1" 'BEGIN {
    print "login 1 32 5"
    for (k = 0; k < n; k++)
      printf "capacity 0\nsend 1\nrecv 1 25810000000000080000000000000000%08xffffffff%08x%08x%08x000000000000000000000000000003ff00000200\n", k % 128, k + 5, k + 2, k + 33
    print "end"
  }'
}

# Microseconds of processor time of so many runs.
run() {
  TIMEFORMAT='%3U %3S'
  { time for ((i = 0; i < $2; i++)); do "$program" drive < "$1" > "$folder/out"; done; } 2>&1 | awk '{ print ($1 + $2) * 1e6 }'
}

script 0 > "$folder/none"
script 333 > "$folder/short"
script 33333 > "$folder/long"
none=$(run "$folder/none" 400)
short=$(run "$folder/short" 400)
long=$(run "$folder/long" 4)
grep -c '^done .* 00 0 - 8:' "$folder/out" | sed 's/$/ answers of 33333/'
# what a run without exchanges takes does not count
awk -v none="$none" -v short="$short" -v long="$long" 'BEGIN {
  a = (short - none) / 400 / 999; b = (long / 4 - none / 400) / 99999
  printf "1,000 lines: %.3f us a line, %d lines a second\n100,000 lines: %.3f us a line, %d lines a second\nratio %.2f\n", a, 1e6 / a, b, 1e6 / b, b / a
}'
