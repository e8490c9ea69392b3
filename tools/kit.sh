# For bash, to be sourced: what the tools share that compile a program without a proof. `rt try` compiles each program and
# keeps none, so it runs from a copy of the kit in which a program is replaced by one that keeps files.

stop() { echo "tools/$tool: $1" >&2; exit 2; }

# read_call SUFFIX [CRATE [OUTPUT]]: sets `crate` and `output`, or stops if the call is wrong or rt is missing.
read_call() {
    local suffix=$1
    shift
    case ${1-} in
        -*) stop "unknown option $1 (see --help)" ;;
        "") stop "a CRATE is wanted (see --help)" ;;
    esac
    [ $# -le 2 ] || stop "one OUTPUT is allowed (see --help)"
    crate=$top/crates/$1
    [ -f "$crate/src/main.rt" ] || stop "no program crates/$1"
    command -v rt > /dev/null || stop "no command rt: install the Rattle kit first"
    output=$(realpath -m "${2:-$crate/out/$1-$suffix}")
    mkdir -p "$(dirname "$output")"
}

# copy_kit PROGRAM..: sets `kit`, and `work` to a temporary folder, in which `kit` is a copy without these programs of
# the toolchain.
copy_kit() {
    kit=$(dirname "$(dirname "$(realpath "$(command -v rt)")")")
    work=$(mktemp -d)
    trap 'rm -rf "$work"' EXIT
    mkdir -p "$work/kit/toolchain/bin"
    cp -a "$kit/bin" "$work/kit/bin"
    for it in "$kit"/*; do [ -e "$work/kit/${it##*/}" ] || ln -s "$it" "$work/kit/"; done
    for it in "$kit"/toolchain/*; do [ -e "$work/kit/toolchain/${it##*/}" ] || ln -s "$it" "$work/kit/toolchain/"; done
    for it in "$kit"/toolchain/bin/*; do ln -s "$it" "$work/kit/toolchain/bin/"; done
    (cd "$work/kit/toolchain/bin" && rm "$@")
}

# replace PROGRAM: the program of the copy is the bash script on standard input.
replace() {
    { echo '#!/usr/bin/env bash'; cat; } > "$work/kit/toolchain/bin/$1"
    chmod +x "$work/kit/toolchain/bin/$1"
}

# try_program: compiles the program and ends it at once on an empty input; how it ends does not matter.
try_program() {
    (cd "$crate" && "$work/kit/bin/rt" try "${crate##*/}" --seconds 1 < /dev/null > "$work/said" 2>&1) || true
}
