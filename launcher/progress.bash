# How far a proved build is, by its log: it names each crate that is begun, each function that is proved, and each crate's verdict.

# About how many functions each crate has, as NAME=COUNT in the order in which the crates are proved.
functions() {
    local crate
    for crate in $(crates); do
        find "$top/crates/$crate/src" -name '*.rt' ! -name tests.rt -exec cat {} + 2>/dev/null | awk -v crate="$crate" '
            /^ *(pub(\([a-z]+\))? )?(const )?(unsafe )?fn / { count++ }
            /derive\(/ { count += gsub(/Clone|Debug|Default|Hash|PartialEq/, "") }
            END { printf "%s=%d ", crate, count }'
    done
}

# progress FUNCTIONS: crates and functions that are done, of how many. Crates that needed no proof are passed over in the log.
progress() {
    awk -v functions="$1" '
        BEGIN {
            crates = split(functions, parts, " ")
            for (i = 1; i <= crates; i++) {
                split(parts[i], pair, "=")
                place[pair[1]] = i
                has[i] = pair[2]
                all += has[i]
            }
        }
        /^rt: chose --jobs / { at = place[$NF]; checked = proved = 0 }
        /^fn [^ +]+: proved/ { checked++ }
        /^so far: [0-9]+ of / { if ($3 > checked) checked = $3 }
        /^logic=proved / { proved = 1 }
        END {
            done = proved || !at ? at : at - 1
            sum = proved || !at ? 0 : checked < has[at] ? checked : has[at]
            for (i = 1; i <= done; i++) sum += has[i]
            printf "%d of %d crates proved, %d of about %d functions checked", done, crates, sum, all
        }' "$log" 2>/dev/null || true
}

# Writes the progress over and over into one line of the terminal.
watch() {
    local begun=$SECONDS functions
    functions=$(functions)
    while kill -0 $$ 2>/dev/null; do
        printf '\r\033[Kaegean: %s, %d min' "$(progress "$functions")" $(((SECONDS - begun) / 60)) >&2
        sleep 2
    done
}

# watched COMMAND..: runs it, and tells meanwhile how far the build is where standard error is a terminal.
watched() {
    local status=0 watcher
    if [ ! -t 2 ]; then
        "$@"
        return
    fi
    watch 9<&- &
    watcher=$!
    trap 'kill $watcher 2>/dev/null' EXIT
    "$@" || status=$?
    kill $watcher
    wait $watcher 2>/dev/null || true
    trap - EXIT
    printf '\r\033[K' >&2
    return $status
}
