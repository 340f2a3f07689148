#!/usr/bin/env bash
# Frames put and taken per second of processor time on both lines, beside a plain VecDeque<Vec<u8>> in Rust.
# Processor time, and the three in turn, since other work on the machine would else fall on one of them alone.
# Each figure is the median of seven rounds, with the lowest and the highest. Usage: bench/lines.sh [COUNT]
set -euo pipefail
cd "$(dirname "$0")/.."
count=${1:-20000000}
rounds=7
folder=$(mktemp -d)
trap 'rm -rf "$folder"' EXIT
program=crates/linebench/out/linebench
(cd crates/linebench && rt run -- cells 40 1000 >/dev/null 2>&1)
rustc -O -o "$folder/deque" bench/deque.rs

# Runs the words after the first, and adds the millions of frames per second to the file named by it.
once() {
  local name=$1 spent
  shift
  TIMEFORMAT='%U %S'
  spent=$({ time "$@" >"$folder/said"; } 2>&1)
  awk -v n="$count" '{ printf "%.1f\n", n / 1000000 / ($1 + $2) }' <<<"$spent" >>"$folder/$name.rates"
  # All three must have moved the same frames.
  sed 's/.*sum/sum/' "$folder/said" >>"$folder/sums"
}

figure() {
  sort -n "$folder/$1.rates" | awk '{ v[NR] = $1 } END { printf " %6.1f (%.1f to %.1f)", v[(NR + 1) / 2], v[1], v[NR] }'
}

lscpu | grep -E '^(Model name|CPU\(s\)):'
echo "load when begun: $(cut -d' ' -f1-3 /proc/loadavg)"
echo "millions of frames per second of processor time, 8 waiting, $count frames, $rounds rounds: octets, cells, ring, deque"
for length in 4 40 255 512; do
  rm -f "$folder"/*.rates "$folder/sums"
  for _ in $(seq "$rounds"); do
    once cells "$program" cells "$length" "$count"
    once ring "$program" ring "$length" "$count"
    once deque "$folder/deque" "$length" "$count"
  done
  [ "$(sort -u "$folder/sums" | wc -l)" = 1 ] || { echo "the sums differ" >&2; exit 1; }
  printf '%4s' "$length"; figure cells; figure ring; figure deque; echo
done
