# The unproved run: a copy of the sources is compiled and run in a folder of its own, and nothing of the proved build is touched.

# copy_sources ROOM: the code that the program is compiled from.
copy_sources() {
    local crate
    crate_lines >"$1/crates.txt"
    for crate in $(crates); do
        mkdir -p "$1/crates/$crate"
        cp -R "$top/crates/$crate/src" "$1/crates/$crate/"
    done
}

# `rt try` writes the program's standard error and then lines of its own, the last of which says how the run ended. It takes
# input from a file alone: a pipe that is silent for two seconds counts as ended.
quick() {
    local status=0
    need_rt
    say "nothing of this build is proved: the sources are compiled and run as they are, which takes about half a minute"
    room=$(mktemp -d "${TMPDIR:-/tmp}/aegean-XXXXXX") || fail "there is no room for a folder in ${TMPDIR:-/tmp}"
    trap 'rm -rf "$room"' EXIT
    copy_sources "$room"
    cat >"$room/stdin" || fail "standard input can't be read"
    cd "$room/crates/aegean_main"
    rt try -- "$@" <"$room/stdin" 2>"$room/stderr" || status=$?
    if tail -n 1 "$room/stderr" | grep -q '^run=ended status='; then
        grep -Ev '^(interpreter|checked): |^run=ended ' "$room/stderr" >&2 || true
        exit $status
    fi
    cat "$room/stderr" >&2
    fail "the unproved program gave no answer, as the lines above say"
}
