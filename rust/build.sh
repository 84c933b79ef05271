# shellcheck shell=bash
# For ./run, ./test, ./bench and ./fuzz, which source it with $root set: help, tools, and making what is missing or older
# than its sources. That is the proved static library, unless CUWELFRA_LIB_DIR names the folder of one, then a program of
# the Rust workspace. What goes on is told on standard error. No network is used.

tell() { # LINE
    echo "$0: $1" >&2
}

stop() { # STATUS LINE
    tell "$2"
    exit "$1"
}

# Whether help is asked for. Words behind `--` are names.
asks_help() { # WORD...
    local word
    for word in "$@"; do
        case $word in
        --) return 1 ;;
        -h | --help) return 0 ;;
        esac
    done
    return 1
}

# Prints the comment at the top of the script, which is its help.
print_help() {
    sed -n '2,/^[^#]/s/^# \{0,1\}//p' "$0"
}

need() { # TOOL WHAT
    command -v "$1" >/dev/null || stop 3 "$1 is not on this machine's path: $2"
}

# A relative name is one from the caller's folder.
from_here() { # VARIABLE
    case ${!1:-} in
    '' | /*) ;;
    *) export "$1=$PWD/${!1}" ;;
    esac
}

from_here CUWELFRA_LIB_DIR
from_here TPT_REPLICATE_SRC
from_here CUWELFRA_DOCUMENTS
# Programs are looked for in target/rust/release.
unset CARGO_BUILD_TARGET

library=${CUWELFRA_LIB_DIR:-$root/target/staticlib}/libcuwelfra.a
programs=$root/target/rust/release

# Whether a file is there and nothing below the paths is newer. Must-fail edits go into nothing that is made, and what `rt`
# makes stands in the folders out/ of the crates.
is_newest() { # FILE PATH...
    local file=$1
    shift
    [ -f "$file" ] && [ -z "$(find "$@" \( -name must-fail -o -path '*/crates/*/out' \) -prune -o -type f -newer "$file" -print -quit)" ]
}

# Whether the library need not be made. One that is named is taken as it is.
library_is_fresh() {
    [ -n "${CUWELFRA_LIB_DIR:-}" ] || is_newest "$library" "$root/crates" "$root/crates.txt"
}

# Whether the program desks need not be made: it is linked with the library that is asked for, and newer than all that
# goes into it. Where the library is gone, its sources count in its place.
desks_is_fresh() {
    local program=$programs/desks
    local sources=("$root"/rust/{desks,cuwelfra,cuwelfra-sys,Cargo.toml,Cargo.lock} "$root/include")
    if [ -f "$library" ]; then
        library_is_fresh || return 1
        sources+=("$library")
    else
        sources+=("$root/crates" "$root/crates.txt")
    fi
    [ "$(cat "$program.library" 2>/dev/null)" = "${CUWELFRA_LIB_DIR:-}" ] && is_newest "$program" "${sources[@]}"
}

# Stops where a tool is missing that making a program needs.
need_tools() {
    library_is_fresh ||
        need rt "install the Rattle kit, or name the folder of a built libcuwelfra.a in CUWELFRA_LIB_DIR"
    need cargo "install Rust 1.89 or later"
}

# Makes the program desks, and notes which library was asked for.
build_desks() {
    build desks
    [ -x "$programs/desks" ] || stop 3 "cargo has put the program elsewhere than in $programs: is there a build.target in its settings?"
    date_back "$started" "$programs/desks"
    echo "${CUWELFRA_LIB_DIR:-}" >"$programs/desks.library"
}

# Makes the program of a package, and before it the library where that is missing or older than its sources.
build() { # PACKAGE
    need_tools
    log=$(mktemp)
    trap 'rm -f "$log"' EXIT
    if ! library_is_fresh; then
        weigh_crates
        tell "making the static library, which is done once: ${#weights[@]} crates are proved, about $(minutes "$all_seconds") min"
        watched watch_proofs "rt lib" make_library
        tell "cuwelfra proved and compiled; ${#weights[@]} of ${#weights[@]} crates, $(so_far)"
    fi
    started=$EPOCHREALTIME
    watched watch_cargo "cargo build" cargo_build "$1"
    rm -f "$log"
    trap - EXIT
}

# Gives a file that was made the time at which its making began, so that a source that changed meanwhile is newer.
date_back() { # TIME FILE
    touch -c -d "@${1/,/.}" "$2"
}

# Proves the crates that the library needs, lowest first, compiles it, and copies it to where it is looked for. `rt` keeps
# what it proved in the folders out/ of the crates, and writes nothing where a crate and those below it are unchanged.
make_library() {
    local name said began started=$EPOCHREALTIME
    weigh_crates
    for name in "${lowest_first[@]}"; do
        began=$(date +%s)
        if ! said=$(cd "$root/crates/$name" && rt lib 2>&1); then
            echo "$said"
            echo "crate $name is not made"
            return 1
        fi
        if [ "$name" = cuwelfra ]; then
            echo "$said"
        elif [ -n "$said" ]; then
            echo "$said"
            echo "crate $name proved ($(($(date +%s) - began)) s)"
        else
            echo "crate $name proved (unchanged)"
        fi
    done
    mkdir -p "$root/target/staticlib" &&
        cp "$root/crates/cuwelfra/out/libcuwelfra.a" "$root/target/staticlib" &&
        date_back "$started" "$root/target/staticlib/libcuwelfra.a"
}

cargo_build() { # PACKAGE
    CARGO_TARGET_DIR=$root/target/rust \
        cargo build --release --offline --locked --manifest-path rust/Cargo.toml --package "$1"
}

# Runs one step at the top of the repository. What it writes goes to a watcher, and is shown only where the step fails.
watched() { # WATCHER TITLE COMMAND...
    local watcher=$1 title=$2
    shift 2
    if ! (cd "$root" && "$@") 2>&1 | tee "$log" | "$watcher"; then
        cat "$log" >&2
        stop 3 "this failed: $title"
    fi
}

# Tells once that something is compiled.
watch_cargo() {
    local line told=
    while IFS= read -r line; do
        if [ -z "$told" ] && [[ $line == *Compiling* ]]; then
            told=yes
            tell "building the Rust program, less than a minute"
        fi
    done
}

# Tells each crate that is proved, with a guess of the time that is left: the measured seconds of the crates to come,
# at the pace of those that were proved now. The pace begins as if half a minute had gone as measured.
watch_proofs() {
    local line name seconds weight proved=0 left=$all_seconds measured=30 took=30
    while IFS= read -r line; do
        [[ $line =~ ^crate\ ([a-z0-9_]+)\ proved\ \(([0-9]*) ]] || continue
        name=${BASH_REMATCH[1]} seconds=${BASH_REMATCH[2]}
        weight=${weights[$name]:-0}
        proved=$((proved + 1)) left=$((left - weight))
        # One that is unchanged since it was last proved has no seconds.
        if [ -n "$seconds" ]; then
            measured=$((measured + weight)) took=$((took + seconds))
        fi
        tell "$name proved; $proved of ${#weights[@]} crates, $(so_far) so far, about $(minutes $((left * took / measured))) min left"
    done
}

# The time since the script was started.
so_far() {
    echo "$((SECONDS / 60)) min $((SECONDS % 60)) s"
}

# The nearest number of minutes, at least one.
minutes() { # SECONDS
    echo $(($1 < 90 ? 1 : ($1 + 30) / 60))
}

# The seconds of each crate, measured on two cores of an x86-64 server; cuwelfra's are for its proof and the compiled library.
declare -A measured_seconds=(
    [stubs]=1 [error]=7 [words]=10 [codec]=32 [clock]=30 [row]=50 [replicated_log]=79 [gc]=8 [sync]=15 [peer]=29 [merging]=10
    [engine]=24 [working]=50 [batch]=15 [quota]=18 [commit]=25 [merge]=46 [cuwelfra]=75
)
# What crates.txt has: the crates, and what each may import.
declare -A imports
# The crates that the library needs, with the seconds that each is expected to take, and their names, each behind those that
# it imports.
declare -A weights
lowest_first=()

# Fills `weights` and `lowest_first`, and `all_seconds` with the sum.
weigh_crates() {
    local name names
    while IFS=: read -r name names; do
        # Behind the name stands what kind of crate it is.
        imports[${name%% *}]=$names
    done < <(sed -n 's/#.*//; s/[[:space:]]*:/:/p' "$root/crates.txt")
    add_crate cuwelfra
    all_seconds=$(sum "${weights[@]}")
}

# Adds a crate and what it imports. What crates.txt does not list is a library of the Rattle kit. A crate that was not
# measured has the mean.
add_crate() { # NAME
    local name
    if [ -z "${imports[$1]+listed}" ] || [ -n "${weights[$1]:-}" ]; then
        return
    fi
    weights[$1]=${measured_seconds[$1]:-$(($(sum "${measured_seconds[@]}") / ${#measured_seconds[@]}))}
    for name in ${imports[$1]}; do
        add_crate "$name"
    done
    lowest_first+=("$1")
}

sum() { # NUMBER...
    local number sum=0
    for number in "$@"; do
        sum=$((sum + number))
    done
    echo "$sum"
}
