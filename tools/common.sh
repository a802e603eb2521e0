# What the scripts of tools/ share. Each sets root, the repository's folder, and reads this file.
out=$root/target/tools
mkdir -p "$out"

# Ends with a line on standard error.
stop() {
    echo "$1" >&2
    exit 2
}

# Sets SPAR_SRC to the folder of the Rust's sources: the one that is given, or else the one that SPAR_SRC names.
name_sources() {
    SPAR_SRC=${1:-${SPAR_SRC:-}}
    what="pulseengine/spar at commit e8febdb45b, the folder that holds crates/spar-parser/src"
    [ -n "$SPAR_SRC" ] || stop "no sources of the Rust: name their folder as the last argument or in SPAR_SRC ($what)"
    [ -f "$SPAR_SRC/crates/spar-parser/src/lexer.rs" ] || stop "no sources of the Rust in $SPAR_SRC: it has to be $what"
    SPAR_SRC=$(cd "$SPAR_SRC" && pwd)
    export SPAR_SRC
}

# Runs cargo on the packages of tools/. It has nothing to do where nothing changed.
run_cargo() {
    (cd "$root/tools" && cargo "$@" --offline --release --quiet --target-dir "$out") || stop "cargo $* failed"
}

# Runs rt in a crate's folder. What it says is shown where it fails.
run_rt() {
    crate=$1
    shift
    command -v rt > /dev/null || stop "no rt in PATH to run: rt $*"
    (cd "$root/crates/$crate" && rt "$@") > "$out/rt.log" 2>&1 < /dev/null || { cat "$out/rt.log" >&2; stop "rt $* failed in crates/$crate"; }
}

# Puts what rt built into a folder of target/. Where it is the same as what lies there, that keeps its time, so that cargo has nothing to do.
put() {
    mkdir -p "$(dirname "$2")"
    cmp -s "$1" "$2" || cp "$1" "$2"
}

# Proves and builds programs, which lie in target/bin then. rt builds a program only to run it: each runs once, with nothing to read.
build_programs() {
    for program in "$@"; do
        run_rt "$program" run
        put "$root/crates/$program/out/$program" "$root/target/bin/$program"
    done
}

# Proves and builds the static library.
build_library() {
    run_rt capi lib
    put "$root/crates/capi/out/libcapi.a" "$root/target/staticlib/libcapi.a"
}
