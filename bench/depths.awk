# bench/depths.awk, with -v target=x86_64 or aarch64, on NAME.calls NAME.su NAME.s: the bytes of stack that each function of the list takes with all that it
# calls, a line each: the function, the bytes, the deepest chain, and what it calls outside. The compiler says what each function takes (.su); who calls whom
# is read from the assembly, a jump to another function counted as a call.
function deepest(name,    k, n, list, below, most) {
    if (name in known) return known[name]
    if (name in open) { print "stack: " name " calls itself" >"/dev/stderr"; failed = 1; return 0 }
    open[name] = 1
    most = 0
    n = split(calls[name], list, "\t")
    for (k = 1; k <= n; k++) {
        # a call on x86-64 pushes 8 bytes; what a function of the C library takes is not known here and not counted
        below = (target == "x86_64" ? 8 : 0) + ((list[k] in frame) ? deepest(list[k]) : 0)
        if (below > most) { most = below; next_of[name] = list[k] }
    }
    delete open[name]
    return known[name] = frame[name] + most
}
function reached(name,    k, n, list) {
    if (name in seen) return
    seen[name] = 1
    n = split(calls[name], list, "\t")
    for (k = 1; k <= n; k++) {
        if (list[k] in frame) reached(list[k])
        else if (!(list[k] in seen)) { seen[list[k]] = 1; outside = outside " " list[k] }
    }
}
FILENAME ~ /calls$/ { entry[++entries] = $0; next }
FILENAME ~ /su$/ {
    split($0, field, "\t")
    sub(/^[^:]*:([0-9]+:)?/, "", field[1]) # the file, and of a function in C its line
    frame[field[1]] = field[2]
    if (field[3] != "static") { print "stack: " field[1] " takes a stack that is not fixed" >"/dev/stderr"; failed = 1 }
    next
}
/^"?[A-Za-z_][^ \t]*:/ && !/^\./ { name = $1; gsub(/"|:$/, "", name); next }
$1 == "callq" || $1 == "bl" || (($1 == "jmp" || $1 == "b") && $2 !~ /^\./) {
    callee = $2
    gsub(/"/, "", callee)
    sub(/@PLT$/, "", callee)
    calls[name] = calls[name] (calls[name] == "" ? "" : "\t") callee
}
($1 == "callq" || $1 == "jmp") && $2 ~ /^\*/ || $1 == "blr" { print "stack: " name " calls through a pointer" >"/dev/stderr"; failed = 1 }
END {
    for (k = 1; k <= entries; k++) {
        name = entry[k]
        if (!(name in frame)) { print "stack: no " name >"/dev/stderr"; failed = 1; continue }
        most = deepest(name) + (target == "x86_64" ? 8 : 0)
        chain = frame[name]
        for (at = name; at in next_of && next_of[at] in frame; at = next_of[at]) chain = chain " + " next_of[at] " " frame[next_of[at]]
        split("", seen)
        outside = ""
        reached(name)
        print name "\t" most "\t" chain "\t" outside
    }
    exit failed
}
