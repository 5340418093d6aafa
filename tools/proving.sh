# shellcheck shell=sh
# For scripts that prove crates before they can do their work; they read this file at the top of the repository, with `me` as their name.

# Shows a line on a terminal in place of the one before; elsewhere nothing. With no words it clears the line.
show() {
    if [ -t 2 ]; then printf '\r\033[K%s' "${*:+$me: $*}" >&2; fi
}

# Runs a command quietly; where it fails, prints what it wrote and stops.
quietly() {
    log=$(mktemp)
    "$@" >"$log" 2>&1 || {
        show
        cat "$log" >&2
        rm -f "$log"
        echo "$me: failed: $*${crate:+ in crates/$crate}" >&2
        exit 1
    }
    rm -f "$log"
}

# The crate that is being proved.
crate=

# Prints the named crate and those that it uses, lowest first.
with_used() {
    awk -v wanted="$1" '
        function visit(name, parts, i, n) {
            if (name in seen) return
            seen[name] = 1
            n = split(uses[name], parts, " ")
            for (i = 1; i <= n; i++)
                if (parts[i] in uses) visit(parts[i])
            print name
        }
        { sub(/#.*/, "") }
        split($0, half, ":") == 2 { split(half[1], word, " "); uses[word[1]] = half[2] }
        END { visit(wanted) }' crates.txt
}

# Proves and builds the named crate and those that it uses, shows how far it is, and leaves what is built in the out/ of each.
# The second word is `lib` for a library, `run` for a program, which is run for that, on the standard input.
build() {
    crates=$(with_used "$1")
    whole=$(echo "$crates" | wc -w)
    begun=0
    for crate in $crates; do
        begun=$((begun + 1))
        show "proving $begun of $whole: $crate"
        cd "crates/$crate" || exit
        if [ "$crate" = "$1" ]; then quietly rt "$2"; else quietly rt lib </dev/null; fi
        cd ../..
    done
    crate=
    show
}

# Whether the program of the named crate is built, and no source file is newer.
built() {
    [ -x "crates/$1/out/$1" ] && [ -z "$(find crates/*/src -name '*.rt' -newer "crates/$1/out/$1")" ]
}

# Builds the program of the named crate where that has not been done. It is run for that, on the standard input.
build_program() {
    if built "$1"; then return; fi
    build "$1" run
    # where rt finds the program up to date, it leaves it as old as it is
    touch "crates/$1/out/$1"
}
