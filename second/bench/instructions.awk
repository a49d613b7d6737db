# Tables of instructions per event, out of lines "row|halves|runner|instructions" in the order of the rows. gcc names the compiler of the first plain side.
# With limit, no tables: it says which rows of the library take over limit times the plain ones or, when reading, more than the bit vectors.
BEGIN { FS = "|" }
{
    row = $1 "|" $2
    if (!(row in seen)) { seen[row] = 1; rows[++n] = row }
    spent[row, $3] = $4
}
function library(row) {
    return (row, "library") in spent ? sprintf("%.0f", spent[row, "library"]) : "-"
}
function beside(row, runner) {
    return sprintf(" %.0f | %s |", spent[row, runner], library(row) == "-" ? "-" : sprintf("%.2f", spent[row, "library"] / spent[row, runner]))
}
function hold(row, runner, times) {
    if (spent[row, "library"] <= times * spent[row, runner]) { passed++; return }
    failed++
    printf "failed: %s held: %.0f instructions, %s %.0f\n", row, spent[row, "library"], runner, spent[row, runner]
}
function is_reading(row) { return (row, "bitwise") in spent }
END {
    if (limit) {
        for (i = 1; i <= n; i++) {
            hold(rows[i], is_reading(rows[i]) ? "plain_gcc_numbers" : "plain_gcc", limit)
            if (is_reading(rows[i])) hold(rows[i], "bitwise", 1)
        }
        printf "%d passed, %d failed\n", passed, failed
        exit failed > 0
    }
    print "Instructions per event, with the loop around it, which takes about 8; they repeat exactly.\n"
    print "| event | halves held | library | plain, " gcc " | ratio | plain, clang -O3 | ratio |\n|---|---|---|---|---|---|---|"
    for (i = 1; i <= n; i++)
        if (!is_reading(rows[i])) {
            split(rows[i], of, "|")
            print "| " of[1] " | " of[2] " | " library(rows[i]) " |" beside(rows[i], "plain_gcc") beside(rows[i], "plain_clang")
        }
    print "\n| reading | library | record, " gcc " | ratio | record, clang -O3 | ratio | numbers, " gcc " | ratio | numbers, clang -O3 | ratio | bit vector | ratio |"
    print "|---|---|---|---|---|---|---|---|---|---|---|---|"
    for (i = 1; i <= n; i++)
        if (is_reading(rows[i])) {
            split(rows[i], of, "|")
            print "| " of[1] " | " library(rows[i]) " |" beside(rows[i], "plain_gcc") beside(rows[i], "plain_clang") beside(rows[i], "plain_gcc_numbers") \
                beside(rows[i], "plain_clang_numbers") beside(rows[i], "bitwise")
        }
}
