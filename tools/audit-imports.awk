# (i) No file imports what it does not use. An operator is used where its first part stands, a module where a dot comes behind it; behind a dot, or before an equals sign in
# braces, a word is a field's name. The minus is in a name with a dash too, since `rt tidy` keeps its import there. What a file passes on is used. In a source, what a contract imports is used in a contract, and source in the code.
function say(line, what) { print file ":" line ": " what; found++ }

# Whether word i is a name by itself, and names nothing's field.
function free(i) { return T[i - 1] != "." && T[i - 1] != PROJECT && !(T[i + 1] == "=" && T[i - 1] ~ /^[{;]$/) }

# The words that the file uses: used[w], and before a dot led[w].
function words(rust,    i, t, depth, clause, params, own) {
    for (t in used) delete used[t]
    for (t in led) delete led[t]
    for (i = 1; i <= N; i++) {
        if (IN[i]) continue
        if (rust) {
            # a function's own parameters hide what is imported, in its contract
            if (T[i] == "fn") { for (t in own) delete own[t]; params = 1 }
            if (params && T[i] ~ /:$/) { t = T[i]; sub(/:$/, "", t); own[t] }
            if (!clause) {
                clause = opens(i); depth = 0
                if (clause == "{}" || T[i] == "{") params = 0
                if (clause == "()") for (t in own) delete own[t]
                continue
            }
            if (T[i] == substr(clause, 1, 1)) depth++
            if (T[i] == substr(clause, 2) && !--depth) { clause = ""; continue }
            if (T[i] in own) continue
        }
        if (!free(i)) continue
        t = plain(T[i])
        used[t]; if (T[i + 1] == ".") led[t]
        if (t ~ /[A-Za-z]-[a-z]/) used["-"]
        if (t == "←" || t == "do") { used["◌>>=◌"]; used[">>="]; used[">>"] }
        if (t ~ /^◌|◌$/ && t != "◌") { sub(/^◌/, "", t); sub(/◌$/, "", t); used[t] }
    }
    # a path may begin with an imported name
    for (i = 1; i <= U; i++) { t = PATH[i]; if (sub(/[.].*/, "", t)) led[t]; else if (ITEM[i] != "") led[t] }
}
function first_part(name,    w, k, n) { n = split(name, w, "◌"); for (k = 1; k <= n; k++) if (w[k] != "") return w[k] }
# Where a clause of a contract, a ghost item or what a tactic is told begins with word i, the brackets of what is the logic's in it.
function opens(i) {
    if (T[i] ~ /^#!?\[tactic$/) return "()"
    if (T[i] ~ /^(ensures|requires)[*]?$/) return T[i + 1] == "{" || (named(T[i + 1]) && T[i + 2] == "{") ? "{}" : ""
    return T[i] == "ghost" && T[i + 1] != "use" ? "{}" : ""
}

# In the code: a name in lower case is a module before ::, or a function before a bracket; any other is a type or a constant. Readers and writers are also used by their methods.
function coded(name,    n, pattern) {
    if (name in methods) for (n = 1; n <= LINES; n++) if (S[n] ~ ("[.](" methods[name] ")[(]")) return 1
    pattern = "(^|[^A-Za-z0-9_.]|[.][.])" name (name ~ /^[A-Z]/ ? "($|[^A-Za-z0-9_])" : "(::|[(])")
    for (n = 1; n <= LINES; n++) if (!importing[n] && S[n] ~ pattern) return 1
    return 0
}
{
    methods["Read"] = "read|read_exact|read_to_end"; methods["Write"] = "write|write_all|flush"
    file = $0; rust = file ~ /\.rt$/
    if (!lex(file, rust)) { say(1, "cannot be read"); next }
    imports(rust); words(rust)
    for (n in importing) delete importing[n]
    for (i = 1; i <= N; i++) if (IN[i]) importing[L[i]] = 1
    for (k = 1; k <= U; k++) {
        all++
        if (GIVES[k]) continue
        if (RUST[k]) there = coded(AS[k])
        else if (ITEM[k] == "") there = AS[k] in led
        else there = AS[k] in used || (AS[k] ~ /◌/ && first_part(AS[k]) in used)
        if (!there) say(AT[k], "imports " AS[k] " and does not use it")
    }
}
END {
    if (found) exit 1
    printf "audit: %d imports, all used\n", all
}
