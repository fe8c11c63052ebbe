#!/bin/sh
# Repeats all measurements, and runs every command that a document shows. Tables go to standard output, in Markdown.
#
# usage: bench/all.sh > TABLES
#
# Programs that aren't built are proved and built first, which takes more than an hour from nothing. Nothing else should run
# on the machine. What a script skips, since a peer isn't installed, it says in its table's place. bench/gate.py stands
# apart: it takes as long as `rt ci`.

cd "$(dirname "$0")/.." || exit 2
failed=0

./aspq check < examples/even_loop.aspq > /dev/null || exit 1
for crate in sat_bench cube_bench level_bench; do
    [ -x "crates/$crate/out/$crate" ] || (cd "crates/$crate" && rt run < /dev/null > /dev/null) || failed=1
done

for script in documents plain bounds cubes levels sat solve; do
    printf '## %s.py\n\n' "$script"
    python3 "bench/$script.py" || failed=1
    printf '\n'
done

exit "$failed"
