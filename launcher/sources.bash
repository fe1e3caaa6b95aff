# What the program is made from.

# The lines of crates.txt of the program and of the crates that it stands on, each behind those that it uses.
crate_lines() {
    awk '
        function visit(name,   uses, count, i) {
            if (!(name in line) || seen[name]++) return
            count = split(line[name], uses, " ")
            for (i = 2; i <= count; i++) visit(uses[i])
            print line[name]
        }
        { sub(/#.*/, "") }
        /:/ { name = $1; sub(/:.*/, "", name); line[name] = $0 }
        END { visit("aegean_main") }' "$top/crates.txt"
}

# The names of these crates.
crates() { crate_lines | sed 's/[: ].*//'; }

# One line that changes with each source of the program: its name, its bytes, and what each crate uses.
fingerprint() {
    local lines folders
    lines=$(crate_lines)
    mapfile -t folders < <(sed 's/[: ].*//; s,.*,&/src\n&/specs\n&/proofs,' <<<"$lines")
    {
        echo "$lines"
        cd "$top/crates"
        find "${folders[@]}" -type f -print0 2>/dev/null | LC_ALL=C sort -z | xargs -0 sha256sum
    } | sha256sum
}

# Whether the proved program is there and was made from the sources as they are.
is_built() { [ -x "$program" ] && [ "$(cat "$made_from" 2>/dev/null)" = "$(fingerprint)" ]; }
