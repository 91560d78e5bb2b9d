#!/bin/sh
# Times picking a plan over the corpus of 200 sheets, all in one run: the proved library, the fast implementation and, where Debian's
# packages are at hand (apt-get install g++ libgecode-dev cadical), Gecode and CaDiCaL or MiniSat. Prints the tables in Markdown, and each
# sheet's times on standard error. The sheets that are held to the bar take some minutes (only=held); the others take most of them their
# whole minute. Arguments are handed on, as limit=5, only=held, only=reported or only=queens.
set -eu
cd "$(dirname "$0")"

cargo bench --quiet --bench corpus --no-run
program=$(cargo bench --bench corpus --no-run 2>&1 | sed -n 's/.*Executable.*(\(.*\))$/\1/p')
scratch=$(mktemp -d)
trap 'rm -r "$scratch"' EXIT

gecode=
if g++ -std=c++17 -O2 benches/corpus/gecode.cpp -lgecodesearch -lgecodeint -lgecodekernel -lgecodesupport -o "$scratch/gecode" 2>"$scratch/log"
then
    gecode=gecode=$scratch/gecode
else
    echo "Gecode is not at hand" >&2
fi
sat=
if command -v cadical >/dev/null; then
    sat='sat=cadical -q'
elif command -v minisat >/dev/null; then
    sat='sat=minisat -verb=0'
else
    echo "neither CaDiCaL nor MiniSat is at hand" >&2
fi
own=
if [ -x ../target/bin/plan_sheet ]; then
    own=program=../target/bin/plan_sheet
else
    echo "target/bin/plan_sheet is not built: make target/bin/plan_sheet" >&2
fi
"$program" ${own:+"$own"} ${gecode:+"$gecode"} ${sat:+"$sat"} "$@"
