# What tables of the benchmark come to, in ns or in instructions: reads them in markdown and passes them on, then says how the library's ratios to plain by gcc -O2 lie. gcc names
# that compiler where it is another one.
#
# The row that counts for a reading is that into the same array of numbers: the library hands such an array over, cleared, so that only there do both do the same work. Plain's own record, into
# which only what is there is written, is what a program would read into that has no library to keep to; it is said beside it.
function trimmed(x) { gsub(/^ +| +$/, "", x); return x }
function say(what, other,    i, sum, n, over, far, worst) {
    for (i = 1; i <= rows; i++) {
        if (kind[i] == other) continue
        n++; sum += log(ratio[i]); over += ratio[i] > 1.3; far += ratio[i] > 1.5
        if (!worst || ratio[i] > ratio[worst]) worst = i
    }
    if (n) printf "%s: the geometric mean of %d ratios is %.2f, %d are above 1.3, %d above 1.5; the worst is %.2f (%s).\n", what, n, exp(sum / n), over, far, ratio[worst], name[worst]
}
{ print }
/^\|/ {
    n = split($0, f, "|")
    for (i = 1; i <= n; i++) f[i] = trimmed(f[i])
    if ($0 ~ /\| ratio \|/) { # a heading: the first column of each kind is by gcc, and its ratio stands behind it
        delete column
        for (i = n; i > 1; i--) if (f[i] ~ /^(plain|record|numbers), /) column[substr(f[i], 1, index(f[i], ",") - 1)] = i + 1
        next
    }
    for (k in column) if (f[column[k]] + 0 > 0) {
        rows++; kind[rows] = k; ratio[rows] = f[column[k]]
        name[rows] = f[2] (k == "plain" && f[3] != "" && f[3] != "0" ? ", " f[3] " held" : "")
    }
}
END {
    print ""
    if (!gcc) gcc = "gcc -O2"
    say("Library / plain by " gcc ", readings into the same array of numbers (this counts)", "record")
    say("The same with readings into plain's own record", "numbers")
}
