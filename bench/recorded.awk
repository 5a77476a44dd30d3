# bench/recorded.awk, with -v x86=COLUMN -v arm=COLUMN, on PAGE.md and what depths.awk wrote, NAME.x86_64.found.. NAME.aarch64.found..: each call's stack beside
# the one that the page records under "## Stack", in the row that begins with its name. It fails where a call takes more, or has no row.
FILENAME ~ /md$/ {
    if (/^## /) inside = ($0 == "## Stack")
    if (inside && /^\| `/) {
        split($0, cell, /[ \t]*\|[ \t]*/)
        gsub(/`/, "", cell[2]); gsub(/,/, "", cell[x86]); gsub(/,/, "", cell[arm])
        most["x86_64", cell[2]] = cell[x86]; most["aarch64", cell[2]] = cell[arm]
    }
    next
}
FNR == 1 {
    last = target
    target = (FILENAME ~ /x86_64/) ? "x86_64" : "aarch64"
    if (target != last) print (target == "aarch64" ? "Arm" : "x86-64")
}
{
    verdict = "as recorded"
    if (!((target, $1) in most)) { verdict = "NOT RECORDED"; bad = 1 }
    else if ($2 + 0 > most[target, $1] + 0) { verdict = "ABOVE the " most[target, $1] " recorded"; bad = 1 }
    else if ($2 + 0 < most[target, $1] + 0) verdict = "below the " most[target, $1] " recorded"
    printf "  %-44s %6d  %s  (%s%s)\n", $1, $2, verdict, $3, $4 == "" ? "" : "; calls" $4
}
END { exit bad }
