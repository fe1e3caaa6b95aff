# The proved build: one at a time, and none where another run has just made the program.

run_rt() { (cd "$folder" && rt run </dev/null >"$log" 2>&1); }

# `rt run` proves and builds the program and then runs it; without words that prints how it is used.
prove() {
    local sources begun=$SECONDS
    sources=$(fingerprint)
    mkdir -p "$folder/out"
    rm -f "$program"
    say "the program is proved and built first, which takes 30 to 40 minutes on four processors the first time (log: $log); --quick answers in about half a minute, unproved"
    watched run_rt || true
    if [ ! -x "$program" ]; then
        tail -n 20 "$log" >&2
        fail "the program could not be proved and built"
    fi
    echo "$sources" >"$made_from"
    say "the program is proved and built, in $(((SECONDS - begun + 59) / 60)) min"
}

# Waits for the lock on descriptor 9, where there is a flock.
take_turn() {
    command -v flock >/dev/null || return 0
    flock -n 9 && return
    say "another run is building the program, and this one waits for it"
    watched flock 9
}

build() {
    need_rt
    (
        take_turn
        is_built || prove
    ) 9<"$top/aegean"
}
