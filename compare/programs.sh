#!/usr/bin/env bash
# Tries the programs write_job and fits as a user would, in a temporary folder. The gate runs this, with the built ones in target/bin.
# Prints how many checks passed, or the first that failed, and then the status is 1.
set -u
cd "$(dirname "$0")/.." || exit 2

room=$(mktemp -d) || exit 2
trap 'chmod -R u+w "$room"; rm -rf "$room"' EXIT
jobs=$room/jobs
work=$room/work
chmod 755 "$room" && mkdir "$jobs" "$work" && cp target/bin/write_job target/bin/fits "$room" || exit 2
cp crates/write_job/data/square.job "$jobs/square" || exit 2

checks=0
skipped=

# equal WHAT GOT RIGHT
equal() {
    if [ "$2" != "$3" ]; then
        printf 'programs: failed: %s\ngot:   %s\nright: %s\n' "$1" "$2" "$3"
        exit 1
    fi
    checks=$((checks + 1))
}

# ---- the parts of a job

byte() {
    local escaped
    printf -v escaped '\\x%02x' $(($1 & 255))
    printf "$escaped"
}

# Two bytes, the low one first.
word() { byte "$1"; byte $(($1 >> 8)); }

name() { byte 1; word ${#1}; printf %s "$1"; }

thread() { byte 2; word 3; byte "$1"; byte "$2"; byte "$3"; }

# A field of commands, each a kind, x and y.
commands() {
    byte 3
    word $(($# / 3 * 5))
    while [ $# -gt 0 ]; do
        byte "$1"; word "$2"; word "$3"
        shift 3
    done
}

# A field of so many stitches at (1, 0).
stitches() {
    local all
    byte 3
    word $(($1 * 5))
    printf -v all '%.0s\\x00\\x01\\x00\\x00\\x00' $(seq "$1")
    printf "$all"
}

# A job of 65,535 commands, and so many more.
longest() {
    name long
    for _ in $(seq 65); do stitches 1000; done
    stitches $((534 + $1))
    commands 4 1 0
}

# ---- runs of a program

program=$room/write_job

# What the program is run by: `env` runs it as it is.
by=(env)

# From here on permissions count: root may do all, so it becomes nobody. The status tells whether it can.
by_nobody() {
    if [ "$(id -u)" = 0 ]; then by=(setpriv --reuid=65534 --regid=65534 --clear-groups); fi
    (cd "$work" && "${by[@]}" true) 2>"$room/printed" && return
    skipped=', those of permissions skipped, since root cannot become nobody here'
    return 1
}

# Runs the program in the folder `work`. What it prints on standard output is in `printed`, what it says on standard error in `said`, each
# with a dot behind it; the line it was called by is in `call`.
run() {
    call="${program##*/} $*"
    said=$(cd "$work" && "${by[@]}" "$program" "$@" 2>&1 >"$room/printed"; echo .)
    printed=$(cat "$room/printed"; echo .)
}

# The names in the folder and the files' bytes, without a file that is named.
state() { (cd "$work" && find . | sort && find . -type f -exec cksum {} + | sort) 2>&1 | awk -v file="./${1-}" '$NF != file'; }

# leaves PRINTED SAID ARGUMENT..: these are printed and said, and the folder is as it was.
leaves() {
    local right=$1 line=$2 before
    shift 2
    before=$(state)
    run "$@"
    equal "what is printed by: $call" "$printed" "$right"
    equal "what is said by: $call" "$said" "$line"
    equal "the folder after: $call" "$(state)" "$before"
}

# tells LINE ARGUMENT..: the line is said. prints LINE ARGUMENT..: the line is printed.
tells() { leaves . "$1"$'\n.' "${@:2}"; }
prints() { leaves "$1"$'\n.' . "${@:2}"; }

# What README's table says of a number.
sentence() { sed -n "s/^| $1 | \(.*\) | [^|]* |\$/\1/p" README.md | tr -d '`'; }

# refuses NUMBER JOB OUT; unread NUMBER FILE
refuses() { tells "refused $1: $(sentence "$1")" "$jobs/$2" "$3"; }
unread() { tells "refused $1: $(sentence "$1")" "$2" -20 60 -30 15; }

# writes JOB OUT: nothing is said, and no file but OUT has changed or come.
writes() {
    local before
    before=$(state "$2")
    run "$jobs/$1" "$2"
    equal "what is printed by: $call" "$printed" .
    equal "what is said by: $call" "$said" .
    equal "whether OUT is there after: $call" "$([ -s "$work/$2" ] && echo there)" there
    equal "the folder after: $call" "$(state "$2")" "$before"
}

# What is read of a file, as crates/round_trips/stdout has it: length, counts, label and places.
read_back() {
    (echo "$1"; cat "$work/$2") | target/bin/runs | awk -v size="$(wc -c <"$work/$2")" '
        NR == 1 { counts = "points " $7 " runs " $5 " blocks " $3 " cuts " $9 }
        NR == 2 { label = substr($0, 7) }
        /^-?[0-9]+ -?[0-9]+$/ { places = places " " $0 }
        END { print size ", " counts " " label places }'
}

# The same of the list of round_trips, which is the sample job's.
round_trip() { grep -i "^$1: written .* points" crates/round_trips/stdout | head -n 1 | sed 's/^[^:]*: written //'; }

# ---- write_job: what is written

echo 'another file' >"$work/part-aaaaaaaaaaaaaaaa"
for ext in pes pec dst exp jef vp3; do
    writes square "out.$ext"
    equal "out.$ext, read back" "$(read_back "$ext" "out.$ext")" "$(round_trip "$ext")"
    mv "$work/out.$ext" "$room/first"
    head -c 5000 README.md >"$work/out.$ext"
    writes square "out.$ext"
    equal "out.$ext in the place of an old one" "$(cksum <"$work/out.$ext")" "$(cksum <"$room/first")"
done
equal "the start of a PES" "$(head -c 8 "$work/out.pes")" '#PES0001'
equal "the start of a PEC" "$(head -c 8 "$work/out.pec")" '#PEC0001'
equal "the start of a DST" "$(head -c 9 "$work/out.dst")" 'LA:square'
equal "the start of a VP3" "$(head -c 5 "$work/out.vp3")" '%vsm%'

# Large letters, two dots, nothing ahead of the dot, a folder, a name as long as one can be.
mkdir "$work/a.b"
zeros=$(printf '%0251d' 0)
for out in OUT.DST two.dots.dst .dst a.b/out.dst "$zeros.dst"; do
    writes square "$out"
    equal "$out is a DST" "$(cksum <"$work/$out")" "$(cksum <"$work/out.dst")"
done

# A new file has the usual mode.
for mask in 022 077; do
    rm "$work/out.dst"
    (umask "$mask"; cd "$work" && "$program" "$jobs/square" out.dst)
    equal "the mode of a new file under umask $mask" "$(stat -c %a "$work/out.dst")" "$(printf %o $((0666 & ~mask)))"
done

# As many commands as are taken.
longest 0 >"$jobs/longest"
for ext in pes pec dst exp jef vp3; do writes longest "longest.$ext"; done

# ---- write_job: what is refused

rm -r "$work" && mkdir "$work" "$work/a.b" || exit 2
for out in out.dst out.exp out.txt out out.dst.old a.b/out; do echo "old $out" >"$work/$out"; done

for out in out.txt out out.dst.old a.b/out dst new.pe ''; do
    refuses 1 square "$out"
    refuses 1 missing "$out"
done

truncate -s 2097153 "$jobs/too_long"
truncate -s 2097152 "$jobs/not_too_long"
refuses 2 too_long out.dst
refuses 13 not_too_long out.dst

name a >"$jobs/no_commands"
{ name a; commands 0 1 1; } >"$jobs/no_end"
{ name a; commands 4 0 0 4 0 0; } >"$jobs/two_ends"
longest 1 >"$jobs/too_many_commands"
for job in no_commands no_end two_ends too_many_commands; do refuses 6 "$job" out.dst; done

{ name a; commands 1 16001 0 4 16001 0; } >"$jobs/outside"
refuses 7 outside out.dst

{ name a; for i in $(seq 256); do thread "$i" 0 0; done; commands 4 0 0; } >"$jobs/too_many_threads"
refuses 8 too_many_threads out.dst

{ name a; commands 0 1 1 2 2 2 4 2 2; } >"$jobs/moving_trim"
refuses 9 moving_trim out.dst

{ name a; commands 0 122 0 4 122 0; } >"$jobs/long_step"
refuses 10 long_step out.dst
writes long_step out.exp

: >"$jobs/empty"
{ name a; byte 9; word 0; } >"$jobs/unknown_tag"
{ name a; commands 5 0 0 4 0 0; } >"$jobs/unknown_kind"
{ name a; commands 4 0 0; thread 1 2 3; } >"$jobs/late_thread"
{ name a; name b; commands 4 0 0; } >"$jobs/two_names"
{ thread 1 2 3; commands 4 0 0; } >"$jobs/no_name"
for job in empty unknown_tag unknown_kind late_thread two_names no_name; do refuses 13 "$job" out.dst; done

head -c 73 "$jobs/square" >"$jobs/cut"
{ name "$(printf '%065d' 0)"; commands 4 0 0; } >"$jobs/long_name"
{ name a; byte 2; word 4; word 0; word 0; commands 4 0 0; } >"$jobs/long_thread"
{ name a; byte 3; word 6; byte 4; word 0; word 0; byte 4; } >"$jobs/odd_commands"
for job in cut long_name long_thread odd_commands; do refuses 14 "$job" out.dst; done

# The sentence that no job and no file brings up: the source has README's.
equal "the sentence of 11 in the source" "$(grep -cF "\"$(sentence 11)\"" crates/rules/src/lib.rt)" 1

# ---- write_job: what fails

tells "$jobs/missing: No such file or directory" "$jobs/missing" out.dst
tells "$jobs: Is a directory" "$jobs" out.dst
tells 'none/out.dst: No such file or directory' "$jobs/square" none/out.dst
tells "$zeros.long/out.dst: File name too long" "$jobs/square" "$zeros.long/out.dst"
mkdir "$work/folder.dst"
tells 'folder.dst: Is a directory' "$jobs/square" folder.dst

# Files may have so many KiB: nothing is written, or a part.
echo 'old out.pes' >"$work/out.pes"
for size in 0 1; do
    before=$(state)
    said=$(trap '' XFSZ; ulimit -f "$size"; cd "$work" && "$program" "$jobs/square" out.pes 2>&1)
    equal "what is said if files may have $size KiB" "$said" 'out.pes: File too large'
    equal "the folder if files may have $size KiB" "$(state)" "$before"
done

# A folder that may not be written and a job that may not be read.
mkdir "$work/shut"
echo 'old shut/out.dst' >"$work/shut/out.dst"
chmod -R a+rX "$jobs" "$work" "$program"
chmod 555 "$work/shut"
chmod 000 "$jobs/cut"
if by_nobody; then
    tells 'shut/out.dst: Permission denied' "$jobs/square" shut/out.dst
    tells "$jobs/cut: Permission denied" "$jobs/cut" out.dst
fi
by=(env)

usage='usage: write_job JOB OUT'
tells "$usage"
tells "$usage" "$jobs/square"
tells "$usage" "$jobs/square" out.dst out.exp
tells "$usage" "$jobs/square" "$(printf '%05000d' 0).dst"
tells "$usage" "$(printf '%05000d' 0)" out.dst

# ---- fits: yes and no

work=$room/files
mkdir "$work" || exit 2
for ext in pes pec dst exp jef vp3; do writes square "square.$ext"; done
program=$room/fits

# The sample job goes from -20 to 60 and from -30 to 15. The hoop that just holds it, each edge one off inward, the widest hoop.
for ext in pes pec dst exp jef vp3; do
    prints yes "square.$ext" -20 60 -30 15
    prints no "square.$ext" -19 60 -30 15
    prints no "square.$ext" -20 59 -30 15
    prints no "square.$ext" -20 60 -29 15
    prints no "square.$ext" -20 60 -30 14
    prints yes "square.$ext" -2147483648 2147483647 -2147483648 2147483647
done

# Edges that change places, leading zeros, zero in all its forms.
prints no square.exp 60 -20 -30 15
prints no square.exp -20 60 15 -30
prints yes square.exp -0020 060 -30 "$(printf '%04000d' 15)"
byte 0 >"$work/zero.exp" && byte 0 >>"$work/zero.exp" || exit 2
for zero in 0 -0 00 -000; do
    prints yes zero.exp "$zero" "$zero" "$zero" "$zero"
    prints no zero.exp 1 1 "$zero" "$zero"
done

# No runs: yes, even in a hoop without a place.
: >"$work/empty.exp"
prints yes empty.exp 1 -1 1 -1
prints yes empty.exp 2147483647 -2147483648 2147483647 -2147483648

# Large letters, two dots, nothing ahead of the dot, a folder, a name as long as one can be.
mkdir "$work/a.b"
for file in SQUARE.EXP two.dots.exp .exp a.b/square.exp "$zeros.exp"; do
    cp "$work/square.exp" "$work/$file" || exit 2
    prints yes "$file" -20 60 -30 15
    prints no "$file" -20 60 -30 14
done

# As long as a file may be.
truncate -s 2097152 "$work/longest.exp"
prints yes longest.exp 0 0 0 0
prints no longest.exp 0 0 1 1

# ---- fits: what is refused

for file in square.txt square square.exp.old a.b/square; do
    cp "$work/square.exp" "$work/$file" || exit 2
    unread 1 "$file"
done
for file in missing.txt missing a.b exp ''; do unread 1 "$file"; done

for ext in pes pec dst exp jef vp3; do
    truncate -s 2097153 "$work/too_long.$ext"
    unread 2 "too_long.$ext"
done

printf '#PEC0001%04d' 0 >"$work/other.pes"
head -c 5 "$work/square.vp3" >"$work/short.vp3"
{ printf %%vsm%%; byte 1; tail -c +7 "$work/square.vp3"; } >"$work/other.vp3"
for file in empty.pes other.pes short.vp3 other.vp3; do
    touch "$work/$file"
    unread 3 "$file"
done

head -c 11 "$work/square.pes" >"$work/cut.pes"
head -c 56 "$work/square.pec" >"$work/cut.pec"
head -c 511 "$work/square.dst" >"$work/cut.dst"
head -c 3 "$work/square.jef" >"$work/cut.jef"
head -c 7 "$work/square.vp3" >"$work/cut.vp3"
for ext in pes pec dst jef vp3; do unread 4 "cut.$ext"; done

{ printf '#PES0001'; word 0; word -1; } >"$work/negative.pes"
unread 5 negative.pes

{ head -c 6 "$work/square.vp3"; word -1; tail -c +9 "$work/square.vp3"; } >"$work/passes.vp3"
unread 12 passes.vp3

# ---- fits: what fails

tells 'missing.exp: No such file or directory' missing.exp -20 60 -30 15
tells 'none/square.exp: No such file or directory' none/square.exp -20 60 -30 15
tells "$zeros.long.exp: File name too long" "$zeros.long.exp" -20 60 -30 15
mkdir "$work/folder.exp"
tells 'folder.exp: Is a directory' folder.exp -20 60 -30 15

cp "$work/square.exp" "$work/shut.exp" || exit 2
chmod -R a+rX "$work" "$program"
chmod 000 "$work/shut.exp"
if by_nobody; then
    tells 'shut.exp: Permission denied' shut.exp -20 60 -30 15
fi
by=(env)

usage='usage: fits FILE LEFT RIGHT TOP BOTTOM'
tells "$usage"
tells "$usage" square.exp
tells "$usage" square.exp -20 60 -30
tells "$usage" square.exp -20 60 -30 15 0
tells "$usage" square.txt -20 60 -30
tells "$usage" "$(printf '%05000d' 0).exp" -20 60 -30 15
for wrong in '' - + +5 ' 5' '5 ' $'5\n' 5.0 5,0 1e1 0x5 x5 5x --5 -+5 5- ':' / 2147483648 -2147483649 4294967296 18446744073709551616 \
    "$(printf '%0100d' 0 | tr 0 9)" "$(printf '%05000d' 0)"; do
    tells "$usage" square.exp "$wrong" 60 -30 15
    tells "$usage" square.exp -20 "$wrong" -30 15
    tells "$usage" square.exp -20 60 "$wrong" 15
    tells "$usage" square.exp -20 60 -30 "$wrong"
done
tells "$usage" square.txt x 60 -30 15
tells "$usage" missing.exp x 60 -30 15

echo "programs: $checks checks of write_job and fits passed$skipped"
