# What `./gauge`, `./library` and `./test` share: whether the kit is one that README.md names, a line that tells how far the proving is, and the static libraries.
# Sourced with $top, the repository's top.
#   kit_ready                  whether rt can be used; else $kit_missing says in a line what is wrong
#   proving_starts WHO CRATE.. counts from now on, under this name, the crates that are proved of these and all that they need
#   proving_ends               no more of it
#   static_library CRATE NAME  proves a static library and writes target/staticlib/libNAME.a
# At a terminal the line stays in its place; elsewhere there is one every half minute. It goes to standard error.

telling=''

kit_ready() {
    kit_missing='the command rt of the Rattle kit is not on PATH, and nothing is proved without it: put the bin folder of the kit there'
    command -v rt >/dev/null 2>&1 || return 1
    # The line that names the kits: the one that is due, and others that prove the same.
    named=$(grep -F '`rt version`' "$top/README.md")
    pinned=$(printf '%s\n' "$named" | sed -n 's/.*`rt version`: `\([^`]*\)`.*/\1/p')
    here=$(rt version 2>/dev/null)
    case $named in *"\`$here\`"*) return 0 ;; esac
    kit_missing="the command rt on PATH does not tell its version: the kit due is $pinned"
    [ -n "$here" ] || return 1
    kit_missing="the kit here, $here, is older than $pinned, which README.md names"
    [ "${here%% *}" = "${pinned%% *}" ] || [ "$(printf '%s\n' "${here%% *}" "${pinned%% *}" | sort -V | head -n 1)" != "${here%% *}" ] || return 1
    printf '%s\n' "the kit here, $here, is not $pinned, which README.md names: what it refuses may be right" >&2
}

# How many crates these are, with all that they need; all of crates.txt where none is named.
crates_of() { # CRATE..
    awk -F: -v named="$*" '
        function take(c, d, m, k) {
            if (!(c in needs) || c in taken) return
            taken[c]; count++
            m = split(needs[c], d, " ")
            for (k = 1; k <= m; k++) take(d[k])
        }
        /^[a-z]/ { sub(/ .*/, "", $1); needs[$1] = $2 }
        END {
            n = split(named, names, " ")
            for (i = 1; i <= n; i++) take(names[i])
            if (!n) for (c in needs) take(c)
            print count + 0
        }' "$top/crates.txt"
}

# How many crates rt has built since the telling began.
built_since() { find "$top"/crates/*/out/rlib/stamp -newer "$mark" 2>/dev/null | wc -l; }

# A background process is not reached by an interrupt, so it looks whether its script is still there.
tell_on() { # WHO CRATES
    began=$(date +%s)
    turn=0
    while kill -0 $$ 2>/dev/null; do
        sleep 1 </dev/null >/dev/null 2>&1
        turn=$((turn + 1))
        [ -t 2 ] || [ $((turn % 30)) -eq 0 ] || continue
        took=$(($(date +%s) - began))
        line="$1: $(built_since) of $2 crates proved, $((took / 60)) min $((took % 60)) s"
        if [ -t 2 ]; then printf '\r%s\033[K\r' "$line" >&2; else printf '%s\n' "$line" >&2; fi
    done
}

proving_starts() { # WHO CRATE..
    who=$1
    shift
    mark=$top/host/target/proving.mark
    mkdir -p "$top/host/target" && : >"$mark"
    tell_on "$who" "$(crates_of "$@")" >/dev/null &
    telling=$!
}

proving_ends() {
    [ -n "$telling" ] || return 0
    { kill "$telling" && wait "$telling"; } 2>/dev/null
    telling=''
    [ ! -t 2 ] || printf '\033[K' >&2
}

static_library() { # CRATE NAME
    mkdir -p "$top/target/staticlib" && (cd "$top/crates/$1" && rt lib) && cp "$top/crates/$1/out/lib$1.a" "$top/target/staticlib/lib$2.a"
}
