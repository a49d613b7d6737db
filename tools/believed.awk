# What names rest on, for tools/believed: awk -f tools/antt.awk -f tools/believed.awk; its input is lines `root` and `stop`, each with a file and names, then the files of specs/.
# Every definition that a root's text reaches is counted, by name, through the lines `use`; behind a stop nothing is. A variable that has a definition's name is taken
# for the definition, so that too much is counted rather than too little. What the libraries define and the code's own structs (specs.declared) have no lines here.
function say(what) { print "tools/believed: " what > "/dev/stderr"; found++ }
# The file of a module's path: crates/gcc/specs/Promises.antt of Rattle.gcc.specs.Promises.
function file_of(path,    w) { split(page(path), w, " "); gsub(/[.]/, "/", w[2]); return "crates/" w[1] "/specs/" w[2] ".antt" }
function short(f) { sub(/^crates\//, "", f); sub(/[.]antt$/, "", f); return f }

# One definition more, in the module that is open. It gives its name, and each part of an operator's.
function unit(name, kind) { M++; u_file[M] = file; u_name[M] = name; u_kind[M] = kind; u_in[M] = outer[deep]; gives(name); return M }
function gives(name,    w, k) { at[file, name] = M; if (name ~ /◌/) for (k = split(name, w, "◌"); k; k--) if (w[k] != "") at[file, w[k]] = M }
# A word of definition u: its line is one of the definition's, and what it may name is kept. A field's name is no name of a definition.
function belongs(i, u) {
    if (L[i] != u_last[u]) { u_last[u] = L[i]; u_lines[u]++; if (!u_line[u]) u_line[u] = L[i] }
    if (!named(T[i]) || T[i - 1] == PROJECT || (T[i - 1] == "." && !named(T[i - 2])) || (T[i + 1] == "=" && T[i - 1] ~ /^[{;]$/)) return
    u_words[u] = u_words[u] (T[i - 1] == "." ? plain(T[i - 2]) "." : "") plain(T[i]) " "
}
# Whether the words from i on are a name with its type, over parameters, and no clause.
function typed(i,    depth) {
    for (i++; i <= N && (depth || T[i] ~ /^[({]$/); i++) { if (T[i] ~ /^[({]$/) depth++; if (T[i] ~ /^[)}]$/) depth-- }
    return T[i] == ":"
}
# The definitions of the file that was read. edge[deep] is where those of the open module begin, -2 while it has none.
function definitions(    i, j, k, n, u, w) {
    deep = u = 0; edge[0] = 0; outer[0] = 0
    for (i = 1; i <= N; i++) {
        if (IN[i] || (T[i] ~ /^(pub|ghost)$/ && IN[i + 1])) continue
        if (B[i] >= 0) {
            if (edge[deep] == -2) { if (B[i] > edge[deep - 1]) edge[deep] = B[i]; else deep-- }
            while (deep && B[i] < edge[deep]) deep--
        }
        if (B[i] == edge[deep]) {
            for (j = i; T[j] ~ /^(pub|abbrev|unfoldable)$/; j++);
            if (T[j] ~ /^(mod|infix[lr]?)$/) u = 0
            else if (T[j] == "module") { u = unit("module", "module"); outer[++deep] = u; edge[deep] = -2 }
            else if (T[j] ~ /^(data|record)$/) u = unit(plain(T[j + 1]), T[j])
            else if (named(T[j]) && typed(j)) u = unit(plain(T[j]), "")
        } else if (B[i] >= 0 && u_kind[u] == "data") for (k = i; named(T[k]); k++) gives(plain(T[k])) # constructors
        if (u) belongs(i, u)
    }
    for (k = 1; k <= U; k++) { brings(AS[k], k); n = AS[k] ~ /◌/ ? split(AS[k], w, "◌") : 0; for (j = 1; j <= n; j++) if (w[j] != "") brings(w[j], k) }
}
function brings(name, k) { i_path[file, name] = PATH[k]; i_item[file, name] = ITEM[k] }

# The definition that a word of a file names, 0 where it is none of ours.
function meant(f, word,    path, item, k) {
    if ((f, word) in at) return at[f, word]
    k = index(word, ".")
    if (k > 1 && (f, substr(word, 1, k - 1)) in i_path) { path = i_path[f, substr(word, 1, k - 1)]; item = substr(word, k + 1) }
    else if ((f, word) in i_path && i_item[f, word] != "") { path = i_path[f, word]; item = i_item[f, word] }
    if (page(path) == "" || path ~ /[.]declared[.]/) return 0
    if ((file_of(path), item) in at) return at[file_of(path), item]
    say(f " imports " item ", which " file_of(path) " does not define")
    return 0
}
function reach(u,    n, w, k, to) {
    if (u in reached) return
    if ((short(u_file[u]), u_name[u]) in stop) { met[short(u_file[u]), u_name[u]]; return }
    reached[u]
    if (u_in[u]) reach(u_in[u])
    n = split(u_words[u], w, " ")
    for (k = 1; k <= n; k++) if ((to = meant(u_file[u], w[k]))) reach(to)
}

$1 == "root" { n = split($3, w, ","); for (k = 1; k <= n; k++) { R++; r_file[R] = "crates/" $2 ".antt"; r_name[R] = w[k] } next }
$1 ~ /^(stop|code|may)$/ { stop[$2, $3] = $1; next }
{ file = $0; files[++F] = file; if (!lex(file, 0)) say(file " cannot be read"); else { imports(0); definitions() } }
END {
    for (k = 1; k <= R; k++) { if ((r_file[k], r_name[k]) in at) reach(at[r_file[k], r_name[k]]); else say(r_file[k] " does not define " r_name[k]) }
    for (s in stop) { split(s, w, SUBSEP); if (stop[s] != "may" && !(s in met)) say("nothing reaches " w[2] " of " w[1]) }
    for (k = 1; k <= M; k++) if (k in reached) {
        f = u_file[k]; lines[f] += u_lines[k]; total += u_lines[k]
        if (PAGE == "") print f ":" u_line[k] ": " u_lines[k] " " u_name[k]
        if (u_kind[k] != "module") { all++; names[f] = names[f] (names[f] == "" ? "" : ", ") u_name[k] }
    }
    for (k = 1; k <= F; k++) if (files[k] in lines) { f = files[k]; print PAGE == "" ? f ": " lines[f] : "| " short(f) " | " names[f] " | " lines[f] " |" }
    print PAGE == "" ? all " definitions, " total " lines" : "| all | " all " definitions | " total " |"
    exit (found > 0)
}
