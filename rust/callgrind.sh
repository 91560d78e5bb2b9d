#!/bin/sh
# Instructions of one call for each implementation, counted by callgrind: every case of benches/families.rs, or with an argument those whose
# name it fits, by grep, as in sh callgrind.sh '^start'. What is done inside the function `counted` there is counted and nothing else, which
# is the second call of its process. A hand call is the mean of 32, one for each item from the start, whether taken out or refused. The peer
# has no moves and no colouring files: a dash.
set -eu
cd "$(dirname "$0")"

cargo bench --quiet --bench families --no-run
program=$(cargo bench --bench families --no-run 2>&1 | sed -n 's/.*Executable.*(\(.*\))$/\1/p')
cases=$("$program" --names | grep -- "${1-}") || { echo "no case fits $1" >&2; exit 1; }

# instructions NAME IMPLEMENTATION
instructions() {
    valgrind --tool=callgrind --callgrind-out-file=/dev/null --toggle-collect='families::counted*' "$program" --count "$1" "$2" 2>&1 |
        sed -n 's/.*Collected : *\([0-9]*\).*/\1/p'
}

printf '%-66s %12s %12s %12s %12s %11s %11s\n' 'instructions per call' proved reference peer fast proved/peer proved/fast
echo "$cases" | while read -r case; do
    name=${case% *} calls=${case##* }
    case $name in
        move* | colouring*) peer=- ;;
        *) peer=$(instructions "$name" peer) ;;
    esac
    echo "$calls" "$(instructions "$name" proved)" "$(instructions "$name" reference)" "$(instructions "$name" fast)" "$peer" |
        awk -v name="$name" '
            NF != 5 || $2 * $3 * $4 == 0 || $5 == 0 { print name ": not counted"; exit 1 }
            { peer = $5 == "-" ? "-" : sprintf("%.0f", $5 / $1); over_peer = $5 == "-" ? "-" : sprintf("%.2f", $2 / $5) }
            { printf "%-66s %12.0f %12.0f %12s %12.0f %11s %11.2f\n", name, $2 / $1, $3 / $1, peer, $4 / $1, over_peer, $2 / $4 }'
done
