# Words of a source (.rt) or of a specification or proof (.antt), and its imports, for the audits: awk -f tools/antt.awk -f tools/audit-...awk
# A name of the logic's language is a run of characters up to a space or one of ( ) { } . ; , @ " and the two angle quotes. Bytes, not characters, are looked at.

# Reads a file into T[1] to T[N]: its words in order, without comments and with "" for a text. L[i] is the line of a word, B[i] its indentation if its line begins with
# it and -1 otherwise. Dots are words of three kinds, as the spaces around them have a meaning: PROJECT ("x .f"), ENDS ("λ x. e") and "." ("M.x" and "x.f"). S[n] is the bare text of line n.
function lex(file, rust,    s, n, i, k, w, out, hit, deep, got) {
    N = LINES = deep = 0
    while ((got = (getline s < file)) > 0) {
        n = ++LINES
        if (rust) gsub(/'"'/, "''", s)
        for (out = ""; ; ) {
            if (deep) { if (!(i = index(s, rust ? "*/" : "-}"))) { s = ""; break } s = substr(s, i + 2); deep = 0 }
            if (!match(s, rust ? TEXT "|/[*]|//|(^|[ \t])--[ \t]" : TEXT "|[{]-|(^|[ \t(){}.;,@])--")) break
            hit = substr(s, RSTART, RLENGTH)
            out = out substr(s, 1, RSTART - 1) (hit ~ /^"/ ? "\"\"" : " ")
            s = substr(s, RSTART + RLENGTH)
            if (hit == "/*" || hit == "{-") deep = 1; else if (hit !~ /^"/) { s = ""; break }
        }
        S[n] = s = out s
        i = match(s, /[^ \t]/) - 1
        s = " " s " "
        gsub(/""/, " & ", s); gsub(/\.«/, ".\003", s); gsub(/«/, " «", s); gsub(/»/, "» ", s); gsub(/» \./, "».", s)
        gsub(/[ \t]\./, " " PROJECT, s); gsub(/\.[ \t]/, " " ENDS " ", s); gsub(/\./, " . ", s); gsub(PROJECT, " " PROJECT " ", s)
        gsub(/[(){};,@]/, " & ", s); gsub(/\003/, "«", s)
        k = split(s, w, " ")
        for (hit = 1; hit <= k; hit++) { T[++N] = w[hit]; L[N] = n; B[N] = hit == 1 ? i : -1 }
    }
    T[N + 1] = T[N + 2] = T[N + 3] = ""; B[N + 1] = 0
    if (got == 0) close(file)
    return got == 0
}

# Whether a word is a name, and no bracket, dot, colon or text.
function named(t) { return t != "" && t !~ /^[(){};,@.:]$/ && t != PROJECT && t != ENDS && t != "\"\"" }

# «x» is x, unless it has an underscore, which is no argument's place then.
function plain(t) { return t ~ /^«[^_]*»$/ ? substr(t, 3, length(t) - 4) : t }

# The crate that a path of an import leads into, one of ours, by the list OURS; "" for a path into the library.
function ours(path) {
    if (path !~ /^Rattle[.]/) return ""
    sub(/^Rattle[.]/, "", path); sub(/[.].*/, "", path)
    return index(" " OURS " ", " " path " ") ? path : ""
}
# The crate and the page of a module of ours: "gcc Octet" of Rattle.gcc.specs.Octet; "" for anything else.
function page(path,    c) {
    if ((c = ours(path)) == "" || path !~ /^Rattle[.][^.]*[.]specs[.]/) return ""
    sub(/^Rattle[.][^.]*[.]specs[.]/, "", path)
    return c " " path
}

# The imports of the file that was read, U of them: PATH[k] the module, ITEM[k] the thing in it ("" for the module itself), AS[k] its name here, AT[k] its line,
# GIVES[k] whether others get it from here, RUST[k] whether it is source that is imported. IN[i] marks the words of import lines.
function imports(rust,    i, j, path, item, as, ghost, gives) {
    U = 0
    for (i = 1; i <= N; i++) IN[i] = 0
    for (i = 1; i <= N; i++) {
        if (T[i] != "use" || !(B[i] >= 0 || T[i - 1] ~ /^(pub|ghost)$/)) continue
        ghost = T[i - 1] == "ghost"; gives = T[i - 1] == "pub"
        IN[i] = 1
        if (rust && !ghost) { i = sources(i, gives); continue }
        path = as = ""
        for (j = i + 1; j <= N && (rust || B[j] < 0) && T[j] !~ /^([{;]|as)$/; j++) { path = path T[j]; IN[j] = 1 }
        if (T[j] == "{" && path ~ /\.$/) {
            sub(/\.$/, "", path)
            for (item = as = ""; j <= N && T[j] != "}"; j++) {
                IN[j] = 1
                if (T[j] == "," ) { import(path, item, as, L[i], gives, 0); item = as = "" }
                else if (T[j] == "as") as = T[++j]
                else if (T[j] != "{") item = item T[j]
                IN[j] = 1
            }
            IN[j] = 1
            if (item != "") import(path, item, as, L[i], gives, 0)
        } else {
            if (T[j] == "as") { IN[j] = IN[j + 1] = 1; as = T[j + 1]; j++ } else j--
            import(path, "", as, L[i], gives, 0)
        }
        i = j
    }
}
function import(path, item, as, line, gives, rust,    w, k) {
    U++; AT[U] = line; GIVES[U] = gives; RUST[U] = rust
    k = split(item == "" ? path : item, w, rust ? "::" : ".")
    if (item != "" && k > 1 && !rust) { path = path "." substr(item, 1, length(item) - length(w[k]) - 1); item = w[k] }
    PATH[U] = path; ITEM[U] = plain(item); AS[U] = plain(as == "" ? w[k] : as)
}
# An import of source: each word before a comma, a brace or the end is one.
function sources(i, gives,    j, from, w, k) {
    for (j = i + 1; j <= N && T[j] != ";"; j++) {
        IN[j] = 1
        if (T[j] == "{") from = T[j - 1]
        if (T[j] == "as") import(T[j - 1], T[j - 1], T[j + 1], L[j], gives, 1)
        else if (!named(T[j]) || T[j + 1] == "{" || T[j + 1] == "as" || T[j - 1] == "as") continue
        else if (T[j] == "self") { k = split(from, w, "::"); import(from, from, w[k - 1], L[j], gives, 1) }
        else import(T[j], T[j], "", L[j], gives, 1)
    }
    IN[j] = 1
    return j
}

BEGIN { PROJECT = "\001"; ENDS = "\002"; TEXT = "\"([^\"\\\\]|\\\\.)*\"" }
