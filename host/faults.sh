#!/usr/bin/env bash
# Tries the trials themselves: a sound stand-in for the proved library must pass them, and each stand-in with a fault put in
# (faults/*.edit) must fail those that its edit names. It needs no proved library and says nothing about one.
#
#   faults.sh [NAME..]       all faults, or those named
#   faults.sh --drawn N      N of them: others for each commit, the same ones for the same commit
set -uo pipefail
cd "$(dirname "$0")"
work=target/stand-in
# All stand-ins are built at one place, so that rustc compiles anew only what the fault changes in the one before.
tried=$work/tried
export STAND_IN_FLAGS="-C opt-level=1 -C codegen-units=16 -C lto=off -C incremental=$work/incremental"
export TRIAL_CALLS=${TRIAL_CALLS:-400000} TRIAL_RUNS=${TRIAL_RUNS:-3000} TRIAL_SCRIPTS=${TRIAL_SCRIPTS:-800} TRIAL_TRAYS=${TRIAL_TRAYS:-1500} TRIAL_QUICK=${TRIAL_QUICK:-400}

cargo build --release --offline --locked --quiet --package trial --example try_library || exit 2
program=${CARGO_TARGET_DIR:-target}/release/examples/try_library

build() { # [EDIT]
    rm -rf "$tried"
    ./stand-in.sh "$tried" "$@"
}

try() { # TRIAL: its status
    "$program" "$tried" "$1" >"$tried/$1.log" 2>&1
}

keep() { # NAME: the stand-in and what was said of it, to be looked at
    rm -rf "${work:?}/$1"
    mv "$tried" "$work/$1"
}

drawn() { # N NAME..: so many of the names, by the commit
    local many=$1 seed
    shift
    seed=$(git rev-parse HEAD 2>/dev/null || cat plain/src/*.rs | cksum)
    for name in "$@"; do
        echo "$(printf '%s' "$seed $name" | cksum | cut -d ' ' -f 1) $name"
    done | sort -n | head -n "$many" | cut -d ' ' -f 2
}

all=($(basename -s .edit faults/*.edit))
names=("$@")
[ $# -gt 0 ] || names=("${all[@]}")
[ "${1:-}" != --drawn ] || names=($(drawn "$2" "${all[@]}" | sort))

build || exit 2
failed=0
for trial in differential secrecy trays quick images replay; do
    TRIAL_CALLS=20000 TRIAL_RUNS=300 TRIAL_SCRIPTS=100 TRIAL_TRAYS=300 TRIAL_QUICK=100 TRIAL_IMAGES=20 try "$trial"
    [ $? = 0 ] || { keep sound; echo "the sound stand-in fails $trial: see host/$work/sound/$trial.log"; exit 1; }
done

for name in "${names[@]}"; do
    trials=($(sed -n 's/^caught-by: //p' "faults/$name.edit"))
    parts=library
    [[ " ${trials[*]} " != *" replay "* ]] || parts="library replay"
    [ "${trials[*]}" != replay ] || parts=replay
    PARTS=$parts build "faults/$name.edit" || { failed=1; continue; }
    missed=()
    for trial in "${trials[@]}"; do
        try "$trial"
        [ $? = 101 ] || missed+=("$trial")
    done
    if [ ${#missed[@]} -gt 0 ]; then
        keep "$name"
        echo "$name: NOT CAUGHT by ${missed[*]}: see host/$work/$name"
        failed=1
    else
        echo "$name: caught by ${trials[*]}"
        rm -rf "${work:?}/$name"
    fi
done
[ $failed = 0 ] && echo "host: each of ${#names[@]} faults of ${#all[@]} is caught"
exit $failed
