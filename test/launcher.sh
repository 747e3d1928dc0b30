#!/usr/bin/env bash
# Tries the launcher, and ends with 1 at the first thing that is not as it should be:
#
#     test/launcher.sh [quick]
#
# First in a small tree, with a stand-in for rt and programs of a few lines: what is proved when, what is said, and the exit statuses. That
# takes seconds and needs no toolchain; with the word quick it is all. Then here: a flow is run, which proves what is missing.
set -euo pipefail
top="$(dirname "$(dirname "$(readlink -f "${BASH_SOURCE[0]}")")")"
room="$(mktemp -d)"
trap 'rm -rf "$room"' EXIT
tree="$room/a tree"
asked="$room/asked"
count=0

# ---- what is looked at

# Ends with what went wrong, and what was written last.
wrong() {
    echo "launcher.sh: $1" >&2
    sed 's/^/  standard output: /' "$room/out" >&2
    sed 's/^/  standard error: /' "$room/err" >&2
    exit 1
}

# try STATUS COMMAND..: the command ends with that status. What it writes is kept, and how often rt was asked.
try() {
    local wanted="$1" status=0
    shift
    : >"$asked"
    "$@" >"$room/out" 2>"$room/err" || status=$?
    [ "$status" = "$wanted" ] || wrong "$*: the exit status is $status and not $wanted"
    count=$((count + 1))
}

# It wrote this on standard output; without words, nothing.
wrote() {
    cmp -s "$room/out" <(printf '%b' "$*") || wrong "standard output is not: $*"
}

# It said so many lines on standard error, and the first has these words in it.
said() {
    [ "$(wc -l <"$room/err")" = "$1" ] || wrong "standard error has not $1 lines"
    [[ "$(head -n 1 "$room/err")" == *"${2-}"* ]] || wrong "standard error does not say: $2"
}

# rt was asked so often.
asked() {
    [ "$(wc -l <"$asked")" = "$1" ] || wrong "rt was asked $(wc -l <"$asked") times and not $1"
}

# ---- the small tree

# A stand-in for rt, in a crate's folder. It takes a crate for proved unless it has a file src/fault, and a crate's src/main.rt for its
# program, which it runs. Where a file says that another works there, it says that it waits. And a stand-in for the emulator.
stand_in() {
    mkdir -p "$room/kit/bin"
    echo "stand-in 1" >"$room/kit/KIT-ID"
    printf '#!/bin/sh\necho emulated >&2\nshift 3\nexec "$@"\n' >"$room/kit/bin/qemu-x86_64"
    cat >"$room/kit/bin/rt" <<'TEXT'
#!/usr/bin/env bash
own=${PWD##*/}
echo "$1 $own" >>"$ASKED"
[ "$1" != run ] || exec 3>&1 1>&2
[ ! -e out/busy ] || { echo "rt: waiting for another rt to finish in $PWD" >&2; rm out/busy; }
sleep "${QUIET:-0}"
for name in low "$own"; do
    out=../$name/out
    mkdir -p "$out/rlib"
    sum=$(cat "../$name"/src/* | cksum)
    [ "$sum" != "$(cat "$out/sum" 2>/dev/null)" ] || continue
    echo "rt: chose --jobs 2 for $name"
    sleep "${SLOW:-0}"
    if [ -e "../$name/src/fault" ]; then echo "fn $name::fault: not proved"; exit 1; fi
    if [ "$name" != "$own" ]; then mkdir -p "$out/rlib/$name.rlib"
    elif [ "$1" = run ]; then install "src/main.rt" "out/$name"
    else echo library >"out/lib$name.a"; fi
    echo "$sum" >"$out/sum"
    echo "logic=proved functions=1"
done
[ "$1" != run ] || "out/$own" >&3
TEXT
    chmod +x "$room/kit/bin/"*
    export PATH="$room/kit/bin:$PATH" ASKED="$asked"
}

# A program: it answers by the first line of its input, and writes a line where it has none.
program() {
    cat <<'TEXT'
#!/usr/bin/env bash
read -r word
case $word in
refuse) echo "refused 4 place 0" ;;
bytes) printf 'ref\0used \377\1\n\n' ;;
late) echo "not refused 4" ;;
crash) kill -KILL $$ ;;
*) echo "ran $word" ;;
esac
TEXT
}

# The verbs beside run that take a flow from standard input. Each is a program, sflw_VERB.
others=(held check longest)

# The tree: the launcher, a library for C, its programs, a crate below them and one that nothing rests on.
plant() {
    local name
    read -ra worked <<<"$(sed -n 's/^ *worked=(\(.*\))$/\1/p' "$top/sflw")"
    mkdir -p "$tree/include"
    cp "$top/sflw" "$tree/"
    cp "$top/include/sflw.h" "$tree/include/"
    printf '# a tree: for the launcher\nlow:\nother: low\nsflw_c staticlib: low\n' >"$tree/crates.txt"
    for name in sflw_run "${others[@]/#/sflw_}" "${worked[@]}"; do
        echo "$name : low io # a program" >>"$tree/crates.txt"
        mkdir -p "$tree/crates/$name/src"
        program >"$tree/crates/$name/src/main.rt"
        echo "ran " >"$tree/crates/$name/stdout"
    done
    for name in "${others[@]}"; do
        sed -i "s/\"ran /\"$name /" "$tree/crates/sflw_$name/src/main.rt"
    done
    for name in low other sflw_c; do
        mkdir -p "$tree/crates/$name/src" "$tree/crates/$name/must-fail"
        echo 1 | tee "$tree/crates/$name/src/lib.rt" >"$tree/crates/$name/src/more.rt"
    done
    ln -s "$tree/sflw" "$room/link"
    cp -r "$tree" "$room/twin"
    sed -i 's/"ran /"the twin ran /' "$room/twin/crates/sflw_run/src/main.rt"
}

# Runs the small tree's launcher: go WORD gives the program a word.
go() { "$tree/sflw" run <<<"$1"; }

# ---- what is tried there

# What a verb says and writes, and the status it gives. What is about to be done is said before it is done.
statuses() {
    local verb
    SLOW=20 try 124 timeout 4 "$tree/sflw" run </dev/null && wrote
    said 1 "sflw: proving sflw_run and all below, 2 of 2 crates: about a minute on two cores"
    try 0 go first && wrote 'ran first\n' && asked 1 && said 1 "proving sflw_run"
    try 0 go again && wrote 'ran again\n' && asked 0 && said 0
    try 1 go refuse && wrote 'refused 4 place 0\n' && said 0
    try 0 go bytes && wrote 'ref\0used \0377\01\n\n' && said 0
    try 0 go late && wrote 'not refused 4\n'
    try 137 go crash && wrote
    try 0 "$tree/sflw" && said 0
    try 2 "$tree/sflw" walk && wrote
    try 2 "$tree/sflw" run fast && wrote && said 1 "standard input"
    for verb in "${others[@]}"; do
        try 0 "$tree/sflw" "$verb" <<<first && wrote "$verb first\n" && asked 1 && said 1 "proving sflw_$verb"
        try 1 "$tree/sflw" "$verb" <<<refuse && wrote 'refused 4 place 0\n' && asked 0 && said 0
        try 2 "$tree/sflw" "$verb" fast && wrote && said 1 "standard input"
    done
    QUIET=2.5 try 0 "$tree/sflw" lib && wrote "libsflw.a and sflw.h are in $tree/target/staticlib\n" && asked 1
    said 1 "proving the library and all below, 1 of 2 crates"
    [ "$(cat "$tree/target/staticlib/libsflw.a")" = library ] || wrong "libsflw.a is not what was made"
    cmp -s "$tree/include/sflw.h" "$tree/target/staticlib/sflw.h" || wrong "sflw.h is not left"
    try 0 "$tree/sflw" lib && wrote "libsflw.a and sflw.h are in $tree/target/staticlib\n" && asked 0 && said 0
    try 0 "$tree/sflw" cases && wrote "$(printf 'ran \\n%.0s' "${worked[@]}")" && asked ${#worked[@]} && said 1 "proving ${worked[0]}, "
    echo else >"$tree/crates/${worked[0]}/stdout"
    try 1 "$tree/sflw" cases && wrote 'ran \n' && said 1 "something else"
}

# What has to be asked of rt, and what has not.
changes() {
    touch "$tree/crates/other/src/lib.rt" "$tree/crates/low/must-fail/a.edit" "$tree/sflw"
    try 0 go other && asked 0
    mv "$tree/crates/low/out" "$room/aside"
    try 0 go aside && asked 0
    mv "$room/aside" "$tree/crates/low/out"
    touch "$tree/crates/low/out/more"
    try 0 go more && asked 0
    touch "$tree/crates/low/src/lib.rt"
    try 0 go touched && wrote 'ran touched\n' && asked 1 && said 0
    touch "$tree/crates/low/src/lib.rt"
    QUIET=2.5 try 0 go silent && wrote 'ran silent\n' && asked 1 && said 1 "2 of 2 crates"
    cp -p "$tree/crates/low/src/lib.rt" "$room/was"
    echo 2 >>"$tree/crates/low/src/lib.rt"
    touch -r "$room/was" "$tree/crates/low/src/lib.rt"
    try 0 go hidden && asked 1 && said 1 "proving"
    echo 2 >>"$tree/crates/low/src/lib.rt"
    try 0 go changed && asked 1 && said 1 "proving"
    rm "$tree/crates/low/src/more.rt"
    try 0 go fewer && asked 1 && said 1 "proving"
    mkdir "$tree/crates/low/proofs"
    touch "$tree/crates/low/proofs/Lib.antt"
    try 0 go folder && asked 1 && said 0
    rm -r "$tree/crates/low/proofs"
    try 0 go gone && asked 1 && said 0
    touch -d 2099-01-01 "$tree/crates/low/src/lib.rt"
    try 0 go later && asked 1
    try 0 go later && asked 0
    touch -d 2001-01-01 "$tree/crates/low/src/lib.rt"
    try 0 go older && asked 1
    echo "# more" >>"$tree/crates.txt"
    try 0 go listed && asked 1
    echo "stand-in 2" >"$room/kit/KIT-ID"
    try 0 go kit && asked 1
    touch "$tree/target/bin/sflw_run"
    try 0 go remade && asked 1
    try 0 go same && asked 0 && said 0
}

# A proof that fails or is broken off leaves nothing to be started, until the sources are again as they were when they were proved.
failures() {
    echo 1 >"$tree/crates/low/src/fault"
    try 1 go fault && wrote && asked 1
    grep -q "low::fault: not proved" "$room/err" || wrong "the log is not on standard error"
    try 1 go fault && wrote && asked 1
    rm "$tree/crates/low/src/fault"
    try 0 go mended && wrote 'ran mended\n' && asked 0
    echo 3 >>"$tree/crates/low/src/lib.rt"
    SLOW=20 try 124 timeout 4 "$tree/sflw" run </dev/null && wrote && said 1 "proving sflw_run"
    try 0 go after && wrote 'ran after\n' && asked 1
}

# Two runs at once, of which one proves; without flock they are not kept apart, and this is left out.
at_once() {
    command -v flock >/dev/null || return 0
    echo 4 >>"$tree/crates/low/src/lib.rt"
    : >"$asked"
    SLOW=1 go one >"$room/one" 2>"$room/err" &
    SLOW=1 go two >"$room/out" 2>&1 || wrong "the second of two runs fails"
    wait $! || wrong "the first of two runs fails"
    asked 1
    [ "$(cat "$room/one" "$room/out" | grep -c '^ran ')" = 2 ] || wrong "two runs at once do not both run"
    count=$((count + 1))
}

# Another run of rt is waited for, and that is said.
busy() {
    touch "$tree/crates/sflw_run/src/main.rt" "$tree/crates/sflw_run/out/busy"
    try 0 go waited && wrote 'ran waited\n' && asked 1 && said 1 "another run of rt is at work"
}

# On Arm a program runs under the emulator, and where there is none nothing runs.
arm() {
    mkdir "$room/arm"
    printf '#!/bin/sh\necho aarch64\n' >"$room/arm/uname"
    chmod +x "$room/arm/uname"
    PATH="$room/arm:$PATH" try 0 go arm && wrote 'ran arm\n' && said 1 "emulated"
    rm "$room/kit/bin/qemu-x86_64"
    command -v qemu-x86_64 >/dev/null || { PATH="$room/arm:$PATH" try 1 go arm && wrote && said 1 "emulator"; }
}

# From another folder, through a link, with CDPATH; and in another tree, to which target/ was copied, its own program is made.
places() {
    cd /
    CDPATH="$room:/" try 0 "$room/link" run <<<linked && wrote 'ran linked\n' && asked 0
    cp -r "$tree/target" "$room/twin/"
    try 0 "$room/twin/sflw" run <<<copied && wrote 'the twin ran copied\n' && asked 1
}

# A terminal is told of each crate; where none can be had, this is left out.
terminal() {
    script -qec true /dev/null </dev/null >/dev/null 2>&1 || return 0
    echo 5 >>"$tree/crates/low/src/lib.rt"
    echo "#" >>"$tree/crates/sflw_run/src/main.rt"
    try 0 script -qec "echo seen | '$tree/sflw' run" /dev/null </dev/null
    [ "$(tr -d '\r' <"$room/out" | grep -c -e 'proving sflw_run and all' -e '1 of 2: low proved' -e '2 of 2: sflw_run proved' -e '^ran seen$')" = 4 ] ||
        wrong "a terminal is not told of each crate"
}

# ---- here

# The lines that a program has stored for its input, as `wrote` takes them.
stored() {
    sed 's/$/\\n/' "$top/crates/$1/stdout" | tr -d '\n'
}

# A damaged flow is refused by a verb in one line.
refuses() {
    try 1 "$top/sflw" "$1" <"$room/damaged"
    grep -qx 'refused [0-9]* place [0-9]*' "$room/out" || wrong "a damaged flow is not refused in one line"
}

# A flow is run, at once where nothing is to be proved, and each other verb tells of it; a damaged one is refused; a touched source is looked at.
here() {
    local flow="$top/examples/flow-a.sflw" lines began verb
    lines="$(stored sflw_run)"
    try 0 "$top/sflw" run <"$flow" && wrote "$lines"
    [ "$(wc -l <"$room/err")" -le 1 ] || wrong "standard error has more than a line"
    began=${EPOCHREALTIME/[.,]/}
    try 0 "$top/sflw" run <"$flow" && wrote "$lines" && said 0
    echo "launcher: a run took $(((${EPOCHREALTIME/[.,]/} - began) / 1000)) ms"
    [ $((${EPOCHREALTIME/[.,]/} - began)) -lt 300000 ] || wrong "a run with nothing to prove does not start at once"
    sed 's/^SFLW/SFLV/' "$flow" >"$room/damaged"
    refuses run
    for verb in "${others[@]}"; do
        try 0 "$top/sflw" "$verb" <"$top/crates/sflw_$verb/stdin" && wrote "$(stored "sflw_$verb")"
        refuses "$verb"
    done
    touch "$top/crates/sflw_run/src/main.rt" "$room/before"
    try 0 "$top/sflw" run <"$flow" && wrote "$lines"
    [ "$top/target/proved/sflw_run" -nt "$room/before" ] || wrong "a touched source is not looked at"
    try 2 "$top/sflw" walk
}

(
    stand_in
    plant
    statuses
    changes
    failures
    at_once
    busy
    places
    terminal
    arm
    echo "launcher: $count runs of a small tree are as they should be"
)
[ "${1-}" = quick ] || { here && echo "launcher: $count runs here are as they should be"; }
