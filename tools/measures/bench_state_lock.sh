#!/usr/bin/env bash
# Turns under kom_state_lock with 1, 4, 16 and 64 threads, beside a std::sync::Mutex in Rust with the
# same increment. A turn of the hall takes, logs and puts; one of the mutex locks, adds and lets go.
# Short turns come one after another; in a held turn the thread sleeps for 200 us, as with the sync of
# a disk, and then for 2 ms outside of it. The threads take 2,000,000 short turns together, or as many
# as the one word says, and a 500th as many held ones. Both programs run one after the other, three
# times, and of each the least time and the least processor time count. It needs rt, which proves the
# program bench first, and rustc.
set -euo pipefail
# shellcheck source-path=SCRIPTDIR source=../common/script.sh
. "$(dirname "${BASH_SOURCE[0]}")/../common/script.sh"
turns=${1:-2000000}
proved bench run
bench=$(built bench)

cat > "$work/mutex.rs" <<'RUST'
use std::sync::Mutex;
use std::time::{Duration, Instant};

#[repr(C)]
struct Timespec {
    secs: i64,
    nanos: i64,
}

extern "C" {
    fn clock_gettime(clock: i32, time: *mut Timespec) -> i32;
}

// The processor time of the process, in nanoseconds.
fn processor() -> i64 {
    let mut time = Timespec { secs: 0, nanos: 0 };
    assert_eq!(unsafe { clock_gettime(2, &mut time) }, 0);
    time.secs * 1_000_000_000 + time.nanos
}

fn rest(time: Duration) {
    if !time.is_zero() {
        std::thread::sleep(time);
    }
}

fn measure(name: &str, threads: u64, turns: u64, hold: Duration, pause: Duration) {
    let used = processor();
    let start = Instant::now();
    let sum = Mutex::new(0u64);
    std::thread::scope(|scope| {
        for _ in 0..threads {
            scope.spawn(|| {
                for _ in 0..turns {
                    let mut sum = sum.lock().unwrap();
                    *sum = sum.wrapping_add(1);
                    rest(hold);
                    drop(sum);
                    rest(pause);
                }
            });
        }
    });
    let nanos = start.elapsed().as_nanos();
    let processor = processor() - used;
    let sum = sum.into_inner().unwrap();
    assert_eq!(sum, threads * turns);
    println!("{name} {threads}: {nanos} ns, {processor} ns ({sum})");
}

fn main() {
    let turns: u64 = std::env::args().nth(1).unwrap().parse().unwrap();
    for threads in [1, 4, 16, 64] {
        measure("short", threads, turns / threads, Duration::ZERO, Duration::ZERO);
    }
    for threads in [1, 4, 16, 64] {
        let held = turns / 500 / threads;
        measure("held", threads, held, Duration::from_micros(200), Duration::from_millis(2));
    }
}
RUST
rustc -O -o "$work/mutex" "$work/mutex.rs"

for round in 1 2 3; do
    "$bench" state_lock "$turns" > "$work/hall.$round"
    "$work/mutex" "$turns" > "$work/mutex.$round"
done

# The least of a program's three numbers in the column, divided by its turns.
least() {
    grep -h "^$2 $3: " "$work/$1".[123] | tr -d '()' |
        awk -v column="$4" '{ print $column / $7 }' | sort -n | head -1
}

for kind in short held; do
    for threads in 1 4 16 64; do
        echo "$threads $kind $(least hall "$kind" "$threads" 3) $(least mutex "$kind" "$threads" 3)" \
            "$(least hall "$kind" "$threads" 5) $(least mutex "$kind" "$threads" 5)"
    done
done | awk '{
    printf "%d threads, %s turns: hall %.0f ns, mutex %.0f ns, hall/mutex %.2f; ", $1, $2, $3, $4, $3 / $4
    printf "processor time %.0f ns, %.0f ns, %.2f\n", $5, $6, $5 / $6
}'
