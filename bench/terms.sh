#!/bin/sh
# Times the domain of shared terms: bench/terms.sh
#
# A program makes N operations on terms, of which each second thousand stands in a scope that is left again, and then asks
# for all that are left once more, so that each is shared. It is run for each power of two from 2^16 to 2^20, and the
# processor time of each doubling is compared. Sharing takes constant expected time and a leave costs what it drops as long as
# no doubling takes more than 2.2 times as long; the status is 1 where one does.
#
# The program is not proved: it is built from the text below, in a copy of the crates.
set -eu
here=$(cd "$(dirname "$0")" && pwd)
command -v rt >/dev/null || { echo "skipped: rt is not installed"; exit 0; }

work=$(mktemp -d)
trap 'rm -rf "$work"' EXIT
mkdir -p "$work/crates/terms_bench/src"
for name in word_ops term_form scope_map domain_laws term_domain; do
    mkdir -p "$work/crates/$name"
    cp -r "$here/../crates/$name/src" "$here/../crates/$name/specs" "$here/../crates/$name/proofs" "$work/crates/$name/"
done
grep -E '^(word_ops|term_form|scope_map|domain_laws|term_domain):' "$here/../crates.txt" >"$work/crates.txt"
echo 'terms_bench: term_domain domain_laws term_form word_ops' >>"$work/crates.txt"
cat >"$work/crates/terms_bench/src/main.rt" <<'RT'
#![tactic(auto)]

use domain_laws::Domain;
use std::env;
use std::io;
use std::time::CpuClock;
use term_domain::Terms;
use term_form::{Root, Term};
use word_ops::{Memory, Op};

// A thousand sums of one term and the constants from `first` on.
fn thousand(dom: &mut Terms, base: Term, first: u32) -> Result<(), Memory> {
    for i in 0..500u32 {
        let number = dom.konst(first + i)?;
        let sum = dom.operate(Op::Adds, base, number)?;
    }
    Ok(())
}

// So many thousands, each second of which is left.
fn fill(dom: &mut Terms, base: Term, thousands: u32) -> Result<(), Memory> {
    for i in 0..thousands {
        let mark = dom.mark();
        thousand(dom, base, i * 500)?;
        if i % 2 == 1 {
            dom.leave(&mark);
        }
    }
    Ok(())
}

fn run(rt: &HostRuntime, thousands: u32) -> Result<(), Memory> {
    let mut dom = Terms::new(rt.alloc());
    let base = dom.root(Root::Got)?;
    fill(&mut dom, base, thousands)?;
    for i in 0..thousands {
        if i % 2 == 0 {
            thousand(&mut dom, base, i * 500)?;
        }
    }
    Ok(())
}

fn main(rt: HostRuntime) -> io::Result<()> {
    let mut power: u32 = 16;
    for word in env::args(&rt)? {
        power = word.parse().unwrap_or(power);
    }
    let begun = rt.process_cpu_time()?;
    let done = run(&rt, (1u32 << power) / 1000).is_ok();
    let ended = rt.process_cpu_time()?;
    let spent = ended.as_micros() - begun.as_micros();
    println!(rt; "{power} {spent} {done}")
}
RT
cd "$work/crates/terms_bench"
before=
slow=0
for power in 16 17 18 19 20; do
    spent=$(rt try -- "$power" 2>/dev/null | awk -v p="$power" '$1 == p && $3 == "true" { print $2 }' | sort -n | head -1)
    if [ -z "$spent" ]; then
        echo "2^$power operations: no time"
        exit 1
    fi
    python3 - "$power" "$spent" "$before" <<'PY' || slow=1
import sys
power, spent, before = sys.argv[1], int(sys.argv[2]), sys.argv[3]
ratio = spent / int(before) if before else None
print(f"2^{power} operations: {spent / 1e6:.2f} s" + (f", {ratio:.2f} times those of half as many" if ratio else ""))
sys.exit(ratio is not None and ratio > 2.2)
PY
    before=$spent
done
exit $slow
