# The innermost loops of the functions whose names match `functions`, as far as they ran: a region for llvm-mca each, named by its address and its whole turns.
# First file: the address and the count of every instruction that ran. Second: the disassembly.
# What ran less than a thousandth as often as the hottest instruction is left out, and of a loop what ran in less than half of its turns.

NR == FNR { count[$1] = $2; next }
/^[0-9a-f]+ <.*>:$/ { inside = $2 ~ functions; next }
inside && /^ *[0-9a-f]+:/ {
    at = $1; sub(":", "", at)
    line = $0; sub(/^[^\t]*\t/, "", line); sub(/ *<.*/, "", line); sub(/[ \t]*#.*/, "", line)
    n++; address[n] = at; text[n] = line; ran[n] = count[at] + 0; number[at] = n
    if (ran[n] > hottest) hottest = ran[n]
}

function hot(i) { return ran[i] && ran[i] * 1000 >= hottest }

function lead(from, to) {
    if (!hot(from) || !hot(to)) return
    after[from] = after[from] " " to
    before[to] = before[to] " " from
}

# All that leads to i without passing t, from which i was reached and to which it leads back: the loop that begins at t.
function mark(t, i,    waiting, top, some, k) {
    begins[t] = 1
    part[t, t] = 1
    waiting[top = 1] = i
    while (top) {
        i = waiting[top--]
        if (part[t, i]) continue
        part[t, i] = 1
        for (k = split(before[i], some, " "); k; k--) waiting[++top] = some[k]
    }
}

# Goes to everything that can be reached from a root, depth first: a loop begins where a way leads back to what it came from.
function go(root,    way, top, some, i, to) {
    way[top = 1] = root
    while (top) {
        i = way[top]
        state[i] = "on the way"
        if (tried[i] == split(after[i], some, " ")) { state[i] = "done"; top--; continue }
        to = some[++tried[i]]
        if (state[to] == "on the way") mark(to, i)
        else if (!state[to]) way[++top] = to
    }
}

function innermost(t,    u) {
    for (u in begins) if (u != t && part[t, u]) return 0
    return 1
}

END {
    for (i = 1; i <= n; i++) {
        if (text[i] !~ /^(jmp|ret|ud2)/) lead(i, i + 1)
        to = text[i]
        if (sub(/^j.*0x/, "", to) && to in number) lead(i, number[to])
    }
    for (i = 1; i <= n; i++) if (hot(i) && !state[i]) go(i)
    for (t = 1; t <= n; t++) {
        if (!(t in begins) || !innermost(t)) continue
        body = ""
        turns = ran[t]
        for (i = 1; i <= n; i++) {
            if (!part[t, i] || ran[i] * 2 < ran[t]) continue
            body = body text[i] "\n"
            if (ran[i] < turns) turns = ran[i]
        }
        print "# LLVM-MCA-BEGIN " address[t] " " turns "\n" body "# LLVM-MCA-END"
    }
}
