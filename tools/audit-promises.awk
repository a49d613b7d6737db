# (l) Promises and proofs, one for one. Whatever a page specs/*Promises.antt declares with a closed type, `Name : Type n`, is a promise, a record or data too. It names something
# of the specifications, and exactly one proof has it for its type, `name : Name`, at the left edge of a file of proofs/ that lines `mod` reach. All else on such a page is
# named in a specification. No file of proofs/ makes a promise.
# (m) For each record of the list RECORDS there is the promise NAMEDetermines, which speaks of two of them; of those of the list AWAITED it is not there yet.
function say(line, what) { print file ":" line ": " what; found++ }
# Where the declaration of word i ends: before the next word at the left edge that is not this name again (a clause of it).
function declared_to(i,    j) { for (j = i + 1; j <= N && !(B[j] == 0 && T[j] != T[i] && T[j] != "unfolding"); j++); return j - 1 }

# The declarations at the left edge of a file: D of them, with the word of each name, the word of its colon, and its last word.
function declarations(    i, j) {
    D = 0
    for (i = 1; i <= N; i++) {
        if (B[i] != 0 || IN[i]) continue
        for (j = i; T[j] ~ /^(pub|abbrev|unfoldable|data|record|module|ruleset)$/ && j <= N; j++);
        if (!named(T[j])) continue
        D++; d_name[D] = j; d_kind[D] = T[j - 1]
        # the colon behind its parameters; a clause has none
        for (d_colon[D] = j + 1; d_colon[D] <= N && T[d_colon[D]] ~ /^[({]$/; ) d_colon[D] = shut(d_colon[D]) + 1
        if (T[d_colon[D]] != ":") { D--; continue }
        d_last[D] = declared_to(j)
    }
}
function shut(i,    depth) { for (; i <= N; i++) { if (T[i] ~ /^[({]$/) depth++; if (T[i] ~ /^[)}]$/ && !--depth) return i } return N }
# Whether a declaration's type is `Type n` and no more, with no parameters before the colon.
function closed(d,    c) {
    c = d_colon[d]
    return c == d_name[d] + 1 && T[c + 1] == "Type" && named(T[c + 2]) && (B[c + 3] >= 0 || T[c + 3] == "where")
}

# A promise page.
function promises(    d, i, k, key, own) {
    declarations()
    for (d = 1; d <= D; d++) own[plain(T[d_name[d]])]
    for (k = 1; k <= U; k++) if (ours(PATH[k]) != "") own[AS[k]]
    for (d = 1; d <= D; d++) {
        i = d_name[d]
        if (!closed(d)) { helper[file, plain(T[i])] = L[i]; continue }
        key = crate " " module " " plain(T[i])
        P++; p_key[P] = key; p_file[P] = file; p_line[P] = L[i]; p_name[P] = plain(T[i])
        promise[key] = P
        for (k = d_colon[d]; k <= d_last[d]; k++) {
            if (!(plain(T[k]) in own) || T[k] == T[i] || T[k - 1] == PROJECT) continue
            p_names[P] = 1; p_says[P, T[k]]++
        }
    }
    for (i = 1; i <= N; i++) {
        if (T[i] != ":" || T[i + 1] != "Type" || B[i + 3] < 0) continue
        for (k = i - 1; B[k] < 0 && T[k - 1] ~ /^(pub|abbrev|unfoldable|record|data)$/; k--);
        if (B[k] > 0) say(L[i], "a promise that is not at the left edge: " T[i - 1])
    }
}
# A file of proofs: whatever it states of a promise, by its name or behind its page's.
function proofs(    d, i, c, k, name, from) {
    declarations()
    for (d = 1; d <= D; d++) {
        i = d_name[d]; c = d_colon[d]
        if (closed(d)) say(L[i], "a statement that is made in a proof: " T[i])
        from = name = ""
        if (c != i + 1) continue
        if (B[c + 2] >= 0) { for (k = 1; k <= U; k++) if (ITEM[k] != "" && AS[k] == plain(T[c + 1])) { from = page(PATH[k]); name = ITEM[k] } }
        else if (T[c + 2] == "." && B[c + 4] >= 0) { for (k = 1; k <= U; k++) if (ITEM[k] == "" && AS[k] == plain(T[c + 1])) { from = page(PATH[k]); name = plain(T[c + 3]) } }
        if (from !~ /Promises$/) continue
        Q++; q_key[Q] = from " " name; q_file[Q] = file; q_line[Q] = L[i]; q_name[Q] = T[i]
    }
}
# A module is reached: by a line of the module above it, from proofs/Lib.antt on.
function modules(    i) { for (i = 1; i <= N; i++) if (T[i] == "mod" && (B[i] == 0 || T[i - 1] == "pub")) child[file, T[i + 1]] }
function reached(path,    w, k, n, above, at) {
    n = split(path, w, "/"); sub(/[.]antt$/, "", w[n])
    above = w[1] "/" w[2] "/" w[3] "/Lib.antt"; at = w[1] "/" w[2] "/" w[3]
    for (k = 4; k <= n; k++) { if (!((above, w[k]) in child)) return 0; at = at "/" w[k]; above = at ".antt" }
    return 1
}
# "gcc Promises Name" for a reader.
function shown(key,    w) { split(key, w, " "); gsub(/[.]/, "/", w[2]); return w[3] " of crates/" w[1] "/specs/" w[2] ".antt" }

{
    file = $0; crate = file; sub(/^crates\//, "", crate); sub(/\/.*/, "", crate)
    module = file; sub(/^crates\/[^\/]*\/[a-z]*\//, "", module); sub(/[.]antt$/, "", module); gsub(/\//, ".", module)
    if (!lex(file, 0)) { say(1, "cannot be read"); next }
    imports(0)
    if (file ~ /\/proofs\//) { modules(); proofs() }
    else {
        if (module ~ /Promises$/) promises()
        # what a specification names, other than where it declares it: at the left edge, or behind a mark
        for (i = 1; i <= N; i++) if (named(T[i]) && B[i] != 0 && !(B[i] < 0 && T[i - 1] ~ /^(pub|abbrev|unfoldable|record|data)$/)) mentioned[plain(T[i])]
    }
}
END {
    for (k = 1; k <= Q; k++) {
        file = q_file[k]
        if (!(q_key[k] in promise)) { say(q_line[k], "a proof of a promise that is not there: " shown(q_key[k])); continue }
        if (!reached(file)) { say(q_line[k], "a proof that no line `mod` reaches: " q_name[k]); continue }
        if (q_key[k] in proof) say(q_line[k], "a second proof of " shown(q_key[k]))
        proof[q_key[k]]
    }
    for (k = 1; k <= P; k++) {
        file = p_file[k]
        if (!(p_key[k] in proof)) say(p_line[k], "the promise " p_name[k] " has no proof")
        else if (!p_names[k]) say(p_line[k], "the promise " p_name[k] " names nothing of the specifications")
    }
    for (k in helper) {
        split(k, w, SUBSEP); file = w[1]
        if (!(w[2] in mentioned)) say(helper[k], w[2] " is no promise, and no specification names it")
    }
    file = "crates.txt"
    if (!P) say(1, "there is no promise")
    n = split(RECORDS, w, " ")
    for (k = 1; k <= n; k++) {
        awaited = index(" " AWAITED " ", " " w[k] " ")
        for (there = P; there && p_name[there] != w[k] "Determines"; there--);
        file = there ? p_file[there] : "tools/audit"
        if (!there && !awaited) say(1, "contracts state " w[k] ", and no page promises " w[k] "Determines")
        if (there && awaited) say(p_line[there], w[k] "Determines is there: tools/audit awaits it no more")
        if (there && p_says[there, w[k]] < 2) say(p_line[there], w[k] "Determines does not speak of two of " w[k])
    }
    if (found) exit 1
    printf "audit: %d promises, each with its proof\n", P
}
