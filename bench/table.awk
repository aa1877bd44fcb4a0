# Joins the measurements of the three implementations to one table. Each file has lines of name, nanoseconds and answer; a name
# may come again, and its least time counts. The order of the rows is that of the first file. Below the table stands how long the
# engine's resolve of many candidates takes beside its find of as many; more than MOST times as long is a fault.
BEGIN { MOST = 1.5 }
FNR == 1 { file = FILENAME }
file == ARGV[1] && !($1 in answer) { answer[$1] = $3; row[++rows] = $1 }
$3 != answer[$1] { printf "%s: the answers differ, %s and %s\n", $1, answer[$1], $3 | "cat 1>&2"; differs = 1 }
!((file, $1) in time) || $2 + 0 < time[file, $1] { time[file, $1] = $2 + 0 }

# A time, and how many times as long the engine takes
function beside(file, name,    ratio) {
    if (!((file, name) in time)) return "- | -"
    ratio = time[ARGV[1], name] / time[file, name]
    return sprintf("%.0f | %s", time[file, name], ratio < 0.01 ? "below 0.01" : sprintf("%.2f", ratio))
}

# How many times as long as the find the resolve takes
function resolve(filters,    ratio) {
    ratio = time[ARGV[1], "resolve_1000" filters] / time[ARGV[1], "find_1000" filters]
    printf "resolve_1000%s takes %.2f times as long as find_1000%s; at most %.1f times is asked.\n", filters, ratio, filters, MOST
    if (ratio > MOST) { print "resolve_1000" filters ": too slow" | "cat 1>&2"; slow = 1 }
}

END {
    print "| Call | Engine | Rust | Engine / Rust | Equinox | Engine / Equinox |"
    print "|---|---:|---:|---:|---:|---:|"
    for (i = 1; i <= rows; i++)
        printf "| %s | %.0f | %s | %s |\n", row[i], time[ARGV[1], row[i]], beside(ARGV[2], row[i]), beside(ARGV[3], row[i])
    print ""
    resolve("_all")
    resolve("_listed")
    exit differs || slow
}
