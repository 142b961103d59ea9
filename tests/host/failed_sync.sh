#!/bin/sh
# A sync of a gate fails on a real file system, ext4 on a loop device whose own file system is full for that moment. A resume
# goes on, and a failure of power behind it must leave what the resume relied on. The word is the program. It needs root, loop
# devices, mkfs.ext4, debugfs and cc, and is no part of the tests that need none.
set -u
program=$(readlink -f -- "$1")
here=$(dirname -- "$(readlink -f -- "$0")")
work=$(mktemp -d)
cd "$work" || exit 2
undo() { cd /; umount "$work/logs" 2>/dev/null; [ -n "${loop:-}" ] && losetup -d "$loop"; umount "$work/below" 2>/dev/null; rm -rf "$work"; }
trap undo EXIT
fail() { echo "FAILED $*"; exit 1; }

# The program stops at its sync of this number.
cat > pause.c <<'X'
#define _GNU_SOURCE
#include <signal.h>
#include <stdlib.h>
#include <sys/syscall.h>
#include <unistd.h>
int fsync(int fd) {
    static int made;
    if (++made == atoi(getenv("PAUSE"))) syscall(SYS_kill, getpid(), SIGSTOP);
    return (int)syscall(SYS_fsync, fd);
}
X
cc -shared -fPIC -o pause.so pause.c || exit 2

mkdir below logs
mount -t tmpfs -o size=10m none below && dd if=/dev/zero of=below/image bs=1M count=8 status=none || exit 2
mkfs.ext4 -q -F -O ^has_journal -b 4096 -E lazy_itable_init=0,nodiscard below/image || exit 2
loop=$(losetup -f --show below/image) && mount -o nodiscard "$loop" logs || exit 2
cp "$here/scenes/inputs/scenario" logs && cd logs || exit 2
echo "input tally add 1" > first
: > none
printf 'recover tally\ninput tally add 2\n' > later
sync

# The syncs are: the header, the folder, the batch, the gate.
PAUSE=4 LD_PRELOAD=$work/pause.so "$program" run scenario first > "$work/printed" &
run=$!
sleep 1
block=$(debugfs -R "blocks icrun.00.log2" "$loop" 2>/dev/null | awk '{print $3}')
dd if="$work/below/image" of="$work/saved" bs=4096 skip="$block" count=1 status=none
fallocate -p -o $((block * 4096)) -l 4096 "$work/below/image"
dd if=/dev/zero of="$work/below/filler" bs=4096 status=none 2>/dev/null
kill -CONT $run
wait $run
status=$?
[ $status = 10 ] || fail "the run ended with status $status"
rm "$work/below/filler"
dd if="$work/saved" of="$work/below/image" bs=4096 seek="$block" count=1 conv=notrunc status=none

"$program" resume scenario none > "$work/printed" || fail "resume"
cd "$work" && umount logs && mount "$loop" logs && cd logs || exit 2
"$program" resume scenario later > "$work/printed" || fail "resume behind the failure of power"
"$program" audit scenario > "$work/printed" || fail "audit"
grep -q "^pcom tally taken=2 sum=3$" "$work/printed" || fail "kept: $(head -1 "$work/printed")"
echo "a sync that failed: passed"
