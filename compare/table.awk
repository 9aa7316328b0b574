# table.awk BARS BASELINE ROWS: the benchmark's rows (call, proved and plain nanoseconds) as a table, with each row's bar and how far its
# ratio has moved from the baseline's, and a last line that says which rows are over their bar. A bar of three fields is another: the row is to be
# so many times faster than that one.
BEGIN {
    FS = "\t"
    over = missing = ""
    printf "%-49s %13s %13s %7s %5s %7s\n", "nanoseconds", "proved", "plain", "ratio", "bar", "change"
}
/^#/ { next }
FILENAME == ARGV[1] && NF == 3 { rows[++count] = $1; wanted[$1] = $2; than[$1] = $3; next }
FILENAME == ARGV[1] { bar[$1] = $2; next }
FILENAME == ARGV[2] { before[$1] = $2 / $3; next }
{
    seen[$1] = 1
    proved[$1] = $2
    ratio = $2 / $3
    change = $1 in before ? sprintf("%+.0f%%", 100 * (ratio / before[$1] - 1)) : "-"
    printf "%-49s %13.1f %13.1f %7.2f %5s %7s\n", $1, $2, $3, ratio, $1 in bar ? bar[$1] : "-", change
    if ($1 in bar && ratio > bar[$1]) over = over (over == "" ? "" : "; ") $1 sprintf(" %.2f (%s)", ratio, bar[$1])
}
END {
    for (i = 1; i <= count; i++) {
        name = rows[i]
        if (!(name in proved) || !(than[name] in proved)) { missing = missing "; not measured: " name; continue }
        times = proved[than[name]] / proved[name]
        printf "%s: %.0f times faster than %s (%s wanted)\n", name, times, than[name], wanted[name]
        if (times < wanted[name]) over = over (over == "" ? "" : "; ") name " (times faster)"
    }
    for (name in bar) if (!(name in seen)) missing = missing "; not measured: " name
    print "over their bar: " (over == "" ? "none" : over) missing
}
