# What the scripts that time the built program of crates/ccai_bench begin with: `. "$(dirname "$0")/common.sh"`.
#
# $program is the script's first argument or what `rt run` builds, $here the folder of the scripts, and $work one for
# sources that goes when the script ends. Where the program is not built, the script ends here.
here=$(cd "$(dirname "$0")" && pwd)
program=${1:-$here/../crates/ccai_bench/out/ccai_bench}
if [ ! -x "$program" ]; then
    echo "skipped: $program is not built (rt run in crates/ccai_bench builds it)"
    exit 0
fi
work=$(mktemp -d)
trap 'rm -rf "$work"' EXIT
