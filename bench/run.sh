#!/bin/sh
# Times the runner beside qemu-riscv32 on the same loops of 10^9 instructions: bench/run.sh [PROGRAM]
#
# The program is called as `PROGRAM run IMAGE STEPS`; it is the machine of `ccai run` with a limit of its own on the steps.
# Each loop is run RUNS times, and the least time counts.
set -eu
for tool in qemu-riscv32 riscv64-unknown-elf-gcc riscv64-unknown-elf-objcopy python3; do
    if ! command -v "$tool" >/dev/null; then
        echo "skipped: $tool is not installed"
        exit 0
    fi
done
. "$(dirname "$0")/common.sh"
runs=${RUNS:-3}

# build NAME SOURCE EXIT TURNS: an ELF of a source
build() {
    riscv64-unknown-elf-gcc -march=rv32im -mabi=ilp32 -nostdlib \
        -Wa,--defsym,EXIT="$3" -Wa,--defsym,TURNS="$4" -Wa,--defsym,TABLE=0x11 \
        -Wl,-Ttext=0x10000 -Wl,-Tbss=0x11000 -o "$work/$1" "$here/$2.s"
}

# image NAME SOURCE TURNS [WORDS]: an image of a source
image() {
    build "$1.elf" "$2" 3 "$3"
    riscv64-unknown-elf-objcopy -O binary -j .text "$work/$1.elf" "$work/$1.text"
    python3 "$here/image.py" "$work/$1.text" "$work/$1.image" ${4:-}
}

# least COMMAND..: the least user and system time of its runs in seconds, and its status
least() {
    python3 - "$runs" "$@" <<'PY'
import resource, subprocess, sys
best, status = None, None
for _ in range(int(sys.argv[1])):
    before = resource.getrusage(resource.RUSAGE_CHILDREN)
    status = subprocess.run(sys.argv[2:], stdin=subprocess.DEVNULL).returncode
    after = resource.getrusage(resource.RUSAGE_CHILDREN)
    spent = after.ru_utime + after.ru_stime - before.ru_utime - before.ru_stime
    best = spent if best is None else min(best, spent)
print(f"{best:.2f} {status}")
PY
}

scale=100000000
steps=2000000000

for loop in alu mem; do
    case $loop in
        alu) turns=$((scale * 2)) ;;
        mem) turns=$scale ;;
    esac
    instructions=$((scale * 10))
    build "$loop.linux" "$loop" 93 "$turns"
    image "$loop" "$loop" "$turns"
    set -- $(least qemu-riscv32 "$work/$loop.linux")
    theirs=$1 their_status=$2
    set -- $(least "$program" run "$work/$loop.image" "$steps")
    ours=$1 our_status=$2
    if [ "$our_status" != "$their_status" ]; then
        echo "$loop: status $our_status, and $their_status of qemu-riscv32"
        exit 1
    fi
    python3 -c "
n, ours, theirs = $instructions, max($ours, 0.01), max($theirs, 0.01)
print(f'$loop: {n} instructions, {ours:.2f} s ({n / ours / 1e6:.0f} million a second), '
      f'qemu-riscv32 {theirs:.2f} s, 1/{ours / theirs:.1f} of its rate')"
done

image big exit 1 $((1 << 24))
set -- $(least "$program" run "$work/big.image" "$steps")
echo "load: 2^24 words in $1 s, status $2"
