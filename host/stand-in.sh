#!/usr/bin/env bash
# Builds a stand-in for the proved library and the proved replay program out of the plain monitor: sound, or with the fault of an
# edit put in. It serves to try out the tests themselves.
#
#   stand-in.sh FOLDER [EDIT]     writes FOLDER/libmonitor.so and FOLDER/replay
#
# An edit has the lines 'file:', 'old:' and 'new:', and may have 'after:', a text behind which the old line is looked for.
# STAND_IN_FLAGS are rustc's, by default those of a release; PARTS says which of 'library' and 'replay' are built, both by default.
set -euo pipefail
here=$(cd "$(dirname "$0")" && pwd)
folder=$1
edit=${2:-}
mkdir -p "$folder"
folder=$(cd "$folder" && pwd)
rm -rf "$folder/src"
cp -r "$here/plain/src" "$folder/src"
cp "$here/stub/lib.rs" "$folder/src/stub.rs"
# The stub as a module of the plain monitor, so that the library is compiled in one piece.
printf 'extern crate self as plain;\nmod stub;\n' | cat "$folder/src/lib.rs" - >"$folder/src/library.rs"

field() { # the text after a line's label, spaces and all
    sed -n "s/^$1: //p" "$edit"
}

if [ -n "$edit" ]; then
    file="$folder/$(field file)" old=$(field old) new=$(field new) after=$(field after)
    text=$(<"$file")
    # A text is looked for with %%, which leaves what stands before it: # would take bash a second.
    head=""
    if [ -n "$after" ]; then
        head=${text%%"$after"*}
        [ "$head" != "$text" ] || { echo "$edit: no text '$after'" >&2; exit 2; }
        head+=$after
    fi
    rest=${text:${#head}}
    before=${rest%%"$old"*}
    [ "$before" != "$rest" ] || { echo "$edit: no line '$old'" >&2; exit 2; }
    rest=${rest:${#before}+${#old}}
    [ -n "$after" ] || [[ $rest != *"$old"* ]] || { echo "$edit: more than one line '$old'" >&2; exit 2; }
    printf '%s%s%s%s\n' "$head" "$before" "$new" "$rest" >"$file"
fi

compile() { rustc --edition 2024 -A warnings ${STAND_IN_FLAGS:--C opt-level=3 -C codegen-units=1} "$@"; }
for part in ${PARTS:-library replay}; do
    case $part in
    library) compile --crate-type cdylib --crate-name monitor -o "$folder/libmonitor.so" "$folder/src/library.rs" ;;
    replay)
        compile --crate-type rlib --crate-name plain -o "$folder/libplain.rlib" "$folder/src/lib.rs"
        compile --crate-type bin --crate-name replay --extern plain="$folder/libplain.rlib" -o "$folder/replay" "$folder/src/main.rs"
        ;;
    *)
        echo "no part '$part'" >&2
        exit 2
        ;;
    esac
done
