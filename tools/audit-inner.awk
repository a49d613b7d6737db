# (n) What a reader of statements may pass over. A public statement is the contract of a public function, or a promise: a `Name : Type n` of a page specs/*Promises.antt. It rests on
# the definitions of specs/ that it names, and on those that they name. What only contracts of private functions rest on stands in the crate's specs/Inner.antt, and nothing else
# does; what no statement rests on stands nowhere. The crates of the list ELSEWHERE are not looked at: their Inner is not there yet.
function say(line, what) { print file ":" line ": " what; found++ }
# A name of the file that is read stands for a definition; an operator does by each of its parts.
function stands(name, key,    w, k) {
    means[name] = key
    if (name ~ /◌/) for (k = split(name, w, "◌"); k; k--) if (w[k] != "") means[w[k]] = key
}
function brought(    k, p) {
    for (k in means) delete means[k]
    for (k in module_of) delete module_of[k]
    for (k = 1; k <= U; k++) {
        if (RUST[k] || (p = page(PATH[k])) == "") continue
        if (ITEM[k] == "") module_of[AS[k]] = p; else stands(AS[k], p " " ITEM[k])
    }
}
# Word i names a definition: its key. No field, no name of a record's field, no parameter.
function names(i,    t) {
    t = plain(T[i])
    if (IN[i] || !named(T[i]) || T[i - 1] == PROJECT || T[i - 1] ~ /^([.]|pub)$/ || t in hidden || (T[i + 1] == "=" && T[i - 1] ~ /^[{;]$/)) return ""
    if (T[i + 1] == "." && t in module_of) return module_of[t] " " plain(T[i + 2])
    return t in means ? means[t] : ""
}
function uses(from, key) { if (key != "" && key != from) use[from, ++used[from]] = key }
function shut(i,    depth) { for (; i <= N; i++) { if (T[i] ~ /^[({]$/) depth++; if (T[i] ~ /^[)}]$/ && !--depth) return i } return N }

# ---- Source: the contracts, of which those of public functions are the key "public" and the others "private" ----
function contracts(    i, j, depth, public, from) {
    for (i = 1; i <= N; i++) {
        if (T[i] == "fn") {
            from = public ? "public" : "private"
            for (j in hidden) delete hidden[j]
            for (j = i + 1; j <= N && (depth || T[j] !~ /^(ensures|requires|[{;])$/); j++) {
                depth += gsub(/[([]/, "&", T[j]) - gsub(/[])]/, "&", T[j])
                if (T[j] ~ /^[a-z0-9_]+:$/) hidden[substr(T[j], 1, length(T[j]) - 1)]
            }
            for (; T[j] == "ensures" || T[j] == "requires"; j++)
                for (depth = 0; j <= N; j++) { if (T[j] == "{") depth++; if (T[j] == "}" && !--depth) break; uses(from, names(j)) }
            i = j - 1; depth = 0
        }
        public = T[i] == "pub" || T[i] == "extern" || (public && T[i] ~ /^(""|unsafe|const|async)$/)
    }
    for (j in hidden) delete hidden[j]
}

# ---- Specifications ----
# Whether a declaration begins at word i: the word of its name, and in COLON that of its colon.
function declares(i,    j) {
    if (B[i] < 0 || IN[i]) return 0
    for (j = i; T[j] ~ /^(pub|abbrev|unfoldable|data|record)$/; j++);
    if (!named(T[j])) return 0
    for (COLON = j + 1; T[COLON] ~ /^[({]$/; ) COLON = shut(COLON) + 1
    return T[COLON] == ":" && B[COLON] < 0 ? j : 0
}
# Its definitions: what is deeper than a definition's first line belongs to it, and so does a line of its depth that declares nothing. A module holds definitions.
function definitions(    i, j, k, deep, key, pass, made) {
    for (pass = 1; pass <= 2; pass++) for (i = deep = 0; i <= N; i++) {
        if (!i) { deep = -1; key = ""; continue }
        if (B[i] >= 0 && T[i] == "module") { deep = -1; key = "" }
        else if (B[i] >= 0 && (deep < 0 || B[i] <= deep) && (j = declares(i))) {
            deep = B[i]; key = crate " " module " " plain(T[j]); made = T[j - 1] == "data"
            if (pass == 1) {
                stands(plain(T[j]), key)
                K++; k_key[K] = key; k_file[K] = file; k_line[K] = L[j]; k_name[K] = plain(T[j]); is[key]
                if (module ~ /Promises$/ && COLON == j + 1 && T[COLON + 1] == "Type" && (B[COLON + 3] >= 0 || T[COLON + 3] == "where")) uses("public", key)
            }
        }
        # a constructor stands for its type
        else if (pass == 1 && made && B[i] > deep) for (j = i; named(T[j]); j++) stands(plain(T[j]), key)
        if (pass == 2 && key != "") uses(key, names(i))
    }
}

# Everything that a key uses, by itself or through what it uses.
function reach(key, mark,    k) {
    for (k = 1; k <= used[key]; k++) if (!((use[key, k], mark) in reached)) { reached[use[key, k], mark]; reach(use[key, k], mark) }
}

{
    file = $0; crate = file; sub(/^crates\//, "", crate); sub(/\/.*/, "", crate)
    module = file; sub(/^crates\/[^\/]*\/[a-z]*\//, "", module); sub(/[.]antt$/, "", module); gsub(/\//, ".", module)
    rust = file ~ /[.]rt$/
    if (!lex(file, rust)) { say(1, "cannot be read"); next }
    imports(rust)
    brought()
    if (rust) contracts(); else definitions()
}
END {
    reach("public", "public"); reach("private", "private")
    for (k = 1; k <= K; k++) {
        file = k_file[k]; inner = file ~ /\/specs\/Inner[.]antt$/
        crate = file; sub(/^crates\//, "", crate); sub(/\/.*/, "", crate)
        if (index(" " ELSEWHERE " ", " " crate " ")) continue
        if ((k_key[k], "public") in reached) { if (inner) say(k_line[k], k_name[k] " is in Inner, and a public statement rests on it") }
        else if (!((k_key[k], "private") in reached)) say(k_line[k], "no statement rests on " k_name[k])
        else if (!inner) say(k_line[k], "only private statements rest on " k_name[k] ", and it is not in Inner")
        n += inner
    }
    file = "crates.txt"
    if (!K) say(1, "there is no definition")
    if (found) exit 1
    printf "audit: %d definitions, %d of them for private statements alone\n", K, n
}
