# bench/reached.awk, with -v crate=NAME, on the crate's lib.rt: a line for each public function, by which a program's `main` reaches it (tools/module): a pointer to it, of its
# type. Types are written with the crate that they come from, by the file's `use` items.
function qualified(type,    out, word) {
    out = ""
    while (match(type, /[A-Z][A-Za-z0-9]*/)) {
        word = substr(type, RSTART, RLENGTH)
        if (word == "Self") word = type_of_impl
        # The types of std's prelude have no crate's name before them.
        out = out substr(type, 1, RSTART - 1) (word ~ /^(Result|Option)$/ ? "" : ((word in home) ? home[word] : crate) "::") word
        type = substr(type, RSTART + RLENGTH)
    }
    return out type
}
/^impl [A-Z]/ { type_of_impl = $3 == "for" ? $4 : $2 }
/^use [a-z_0-9]+::/ { item = ""; using = 1 }
using {
    item = item " " $0
    if (/;/) {
        using = 0
        from = item
        sub(/^ *use /, "", from)
        sub(/::.*/, "", from)
        while (match(item, /[A-Z][A-Za-z0-9]*/)) { home[substr(item, RSTART, RLENGTH)] = from; item = substr(item, RSTART + RLENGTH) }
    }
    next
}
/^(    )?pub fn / { signature = ""; reading = 1; indent = /^ / ? "    " : "" }
reading {
    signature = signature " " $0
    if (/\)( -> [^{]*)?( \{)?$/) {
        reading = 0
        gsub(/ +/, " ", signature)
        sub(/ \{$/, "", signature)
        sub(/^ ?pub fn /, "", signature)
        name = signature
        sub(/\(.*/, "", name)
        result = ""
        if (match(signature, /\) -> .*$/)) result = " -> " qualified(substr(signature, RSTART + 5))
        sub(/\)( -> .*)?$/, "", signature)
        sub(/^[^(]*\(/, "", signature)
        n = split(signature, given, /, */)
        list = ""
        for (k = 1; k <= n; k++) {
            it = given[k]
            gsub(/^ +| +$/, "", it)
            if (it == "") continue
            if (it ~ /^(&|&mut |mut )?self$/) { sub(/^mut /, "", it); sub(/self$/, "Self", it); it = "self: " it }
            sub(/^(mut )?[a-z_0-9]+: /, "", it)
            list = list (list == "" ? "" : ", ") qualified(it)
        }
        print "    let f" ++count "_" crate ": fn(" list ")" result " = " crate "::" (indent == "" ? "" : type_of_impl "::") name ";"
    }
}
