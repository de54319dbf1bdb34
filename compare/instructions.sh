#!/usr/bin/env bash
# Instructions per stitch of the published Rust and of the port, by callgrind: only the calls themselves are counted.
# PROGRAM is the built comparison, target/release/compare unless told; DESIGNS names the designs, plain and mix unless told.
# Of `fits` the Rust's are those of its read and a scan of its points. Reads and `fits` of VP3 have no column of the Rust, which does not
# read it. Those of jobs are per command, beside the plain version. Prints a table; some minutes.
cd "$(dirname "$0")" || exit 2
program=${PROGRAM:-target/release/compare}

# DESIGN EXT CALL SIDE: instructions of one call.
count() {
    valgrind --tool=callgrind --callgrind-out-file=/dev/null --toggle-collect=counted "$program" bench one "$@" 1 2>&1 |
        awk '/Collected/ { n = $NF } / (stitches|commands)$/ { count = $1 } END { if (!n) exit 1; print n / count }'
}

echo "| design | format | call | Rust | port | ratio |"
echo "|---|---|---|---|---|---|"
for design in ${DESIGNS:-plain mix}; do
    for ext in pes pec dst exp jef vp3 job; do
        case $ext in
        job) calls="import export" ;;
        *) calls="read-just read-ample fits write" ;;
        esac
        for call in $calls; do
            port=$(count "$design" "$ext" "$call" port) || exit 1
            case $ext-$call in
            vp3-read-* | vp3-fits) rust=none ;;
            *) rust=$(count "$design" "$ext" "$call" rust) || exit 1 ;;
            esac
            awk -v d="$design" -v e="${ext^^}" -v c="${call/-/, }" -v r="$rust" -v p="$port" \
                'BEGIN { if (r == "none") printf "| %s | %s | %s | none | %.1f | |\n", d, e, c, p
                         else printf "| %s | %s | %s | %.1f | %.1f | %.2f |\n", d, e, c, r, p, r / p }'
        done
    done
done
