#!/usr/bin/env bash
# Counts the system calls of a disk over a file in 100,000 turns, or as many as the one word says, and compares its time
# with C that makes the same calls. Both work on files in a folder that the script makes and removes. It needs strace,
# a C compiler and rt, which proves the program bench first.
set -euo pipefail
# shellcheck source-path=SCRIPTDIR source=../common/script.sh
. "$(dirname "${BASH_SOURCE[0]}")/../common/script.sh"
turns=${1:-100000}
proved bench run
bench=$(built bench)

cd "$work"
cat > plain.c <<C
#include <fcntl.h>
#include <sys/stat.h>
#include <unistd.h>
int main(void) {
    char block[512] = {7}, back[512];
    struct stat found;
    int file = open("plain_store", O_RDWR | O_CREAT, 0600);
    for (int turn = 0; turn < $turns; turn++)
        if (ftruncate(file, 0) != 0 || pwrite(file, block, 512, 0) != 512 || fstat(file, &found) != 0
            || pread(file, back, 512, 0) != 512)
            return 1;
    return fdatasync(file) != 0 || unlink("plain_store") != 0;
}
C
cc -O2 -o plain plain.c

echo "system calls of $turns turns of cut, write_at, len and read, and of one sync:"
strace -f -c -e trace=pread64,pwrite64,ftruncate,fdatasync,fsync,fstat,newfstatat,statx "$bench" disk "$turns" 2>&1 > output | grep -E 'calls|64|trunc|sync|stat'
microseconds() { local start end; start=$(date +%s%N); "$@" > output; end=$(date +%s%N); echo $(( (end - start) / 1000 )); }
for _ in 1 2 3; do
    ours=$(microseconds "$bench" disk "$turns")
    theirs=$(microseconds ./plain)
    echo "disk over a file $ours us, plain C $theirs us, ratio $(( ours * 100 / theirs ))/100"
done
