#!/bin/sh
# measure_cache.sh PART FOLDER OUT: the runs that docs/BENCHMARKS.md shows of a cache under a load, as JSON in the folder OUT.
#
# PART   quality   hit ratio, bytes written to flash and memory, beside two simulated designs: some 20 runs of 20 million calls;
#                  they need no idle machine
#        speed     calls a second and latencies at 1, 2 and 4 threads: needs an idle machine with four processors
#        scale     the same load over 1, 16 and 64 GiB of sparse files, from an empty cache: needs an idle machine, and 5 GiB of memory
#        server    one stream to a cache, and then to kangarood and to memcached with and without extstore, which must be installed, by
#                  measure_server.py beside, which prints a table: needs an idle machine and python3
#        plots     draws six pictures from what the other parts left in OUT
# FOLDER has room for files of up to 1 GiB (scale: of a disk, 8 GiB), in which another user may write; the programs are those of
# `make -C c kangaroo-bench server`.
set -e
part=$1
folder=$2
out=$3
[ -n "$out" ] || { sed -n '2,12s/^# \{0,1\}//p' "$0" >&2; exit 2; }
here=$(CDPATH= cd -P "$(dirname "$0")" && pwd)
programs=$here/../c/out
mkdir -p "$folder/cache" "$out"

# NAME WORD..: a run of the cache. The words are kangaroo-bench's.
cache() {
    name=$1
    shift
    echo "$name" >&2
    "$programs/kangaroo-bench" --folder "$folder/cache" --sparse --json "$@" >"$out/$name.json"
}

# NAME WORD..: the two other designs on the same stream.
rivals() {
    name=$1
    shift
    echo "$name" >&2
    "$programs/rivals" --json "$@" >"$out/$name.json"
}

# 8 million keys of which a fifth fits on flash; the second half of the calls counts. Nothing comes back into memory if plain.
stream="--flash 256M --keys 8M --distribution zipf:0.9 --sizes uniform:50:150 --warmup 12M --operations 12M"
plain="--bring-back 0"

quality() {
    for memory in 12M 16M 24M 32M 48M; do
        cache "memory-$memory" $stream $plain --memory "$memory"
        rivals "rivals-$memory" $stream --memory "$memory"
    done
    for back in 0 1 4 8 16 32; do cache "bring-back-$back" $stream --memory 24M --bring-back "$back"; done
    for threshold in 1 3 4; do cache "threshold-$threshold" $stream $plain --memory 24M --threshold "$threshold"; done
    for admit in 50 75 90; do cache "admit-$admit" $stream $plain --memory 24M --admit "$admit"; done
    cache over-time $stream $plain --memory 24M --series "$out/over-time.csv"
    for size in 34 84 284 984 1984; do
        sized="--flash 256M --memory 24M --keys 2M --distribution zipf:0.9 --sizes fixed:$size --warmup 6M --operations 6M"
        cache "size-$size" $sized $plain
        rivals "rivals-size-$size" $sized
    done
}

speed() {
    for threads in 1 2 4; do
        for keys in uniform zipf:0.9; do
            cache "in-memory-${keys%%:*}-$threads" --flash 256M --memory 64M --keys 100K --distribution "$keys" \
                --cache-threads 4 --threads "$threads" --warmup 1M --seconds 4
        done
        cache "on-flash-$threads" --flash 256M --memory 24M --keys 8M --distribution zipf:0.9 --sizes uniform:50:150 \
            --cache-threads 4 --threads "$threads" --warmup 12M --seconds 8
    done
}

# 20 million keys; memory is a sixteenth of flash.
scale() {
    for sizes in 1G:64M 16G:1G 64G:4G; do
        for threads in 1 2 4; do
            cache "scale-${sizes%:*}-$threads" --flash "${sizes%:*}" --memory "${sizes#*:}" --object-bytes 116 --keys 20M \
                --distribution zipf:0.9 --sizes uniform:50:150 --cache-threads 4 --threads "$threads" --warmup 5M --seconds 10
        done
    done
}

server() {
    cache beside-server --keys 10M --distribution zipf:0.99 --sizes fixed:100 --threads 4 --warmup 10M --operations 4M --flash 1G --memory 64M
    python3 -B "$here/measure_server.py" beside "$folder" "$out"
}

plots() {
    draw() { "${PYTHON:-/usr/bin/python3}" "$here/plot.py" "$@"; }
    cd "$out"
    draw hit-ratio-over-time hit-ratio-over-time.svg over-time.csv
    draw hit-ratio-by-memory hit-ratio-by-memory.svg memory-*.json rivals-*M.json
    draw write-amplification write-amplification.svg threshold-*.json admit-*.json memory-24M.json rivals-24M.json
    draw latency latency.svg "one thread"=in-memory-zipf-1.json "two threads"=in-memory-zipf-2.json "four threads"=in-memory-zipf-4.json
    draw gets-by-threads gets-by-threads.svg uniform=in-memory-uniform-1.json uniform=in-memory-uniform-2.json \
        uniform=in-memory-uniform-4.json "Zipf 0.9"=in-memory-zipf-1.json "Zipf 0.9"=in-memory-zipf-2.json \
        "Zipf 0.9"=in-memory-zipf-4.json
    [ ! -f server-bars.csv ] || draw server-bars server-bars.svg server-bars.csv
}

case $part in
    quality | speed | scale | server | plots) "$part" ;;
    *) echo "measure_cache.sh: $part is no part: quality, speed, scale, server or plots" >&2; exit 2 ;;
esac
rm -rf "$folder/cache"
