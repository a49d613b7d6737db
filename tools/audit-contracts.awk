# What public functions state. (a) A function that another crate or C can call states its result, (b) and asks nothing of its caller.
# (j) What it states determines the result. It is `ensures { .. }`, or several with a name each, with equations joined by × inside: `result ≡ ..`, or `result.field ≡ ..` for each field of
# the result's struct, and `x.new ≡ ..` for each &mut x that it is lent; each once, and several as a tuple if need be. A right side names the result or what is lent at the return only
# where an equation before it has said what that is, so by induction two results that meet a contract are equal. Or it is a record of the list RECORDS, applied to the result and
# to all that is lent at the return: of that it is a theorem, NAMEDetermines (audit-promises.awk).
# A function that hands something to a writer may answer its error in place of the result, `IfOk result (λ x. x ≡ ..)`, and says nothing of the writer. What a function reads from a reader no
# contract can say, so of such a one only (a) and (b) are looked at.
# (k) `≡` is the one of the library, and no parameter hides a name of the library in its function's contract. Nothing foreign is declared, whose contract would be assumed.
function say(line, what) { print file ":" line ": " what; found++ }
function wrong(what) { say(from, "public function " name ": " what) }

# ---- The source: functions and structs ----

# What is public begins with `pub fn` or `extern "C" fn`; the head goes on to the first brace that opens no clause.
function heads(    i, public) {
    for (i = 1; i <= N; i++) {
        if (T[i] ~ /^(struct|enum)$/ && named(T[i + 1])) types(i)
        if (T[i] == "extern" && T[i + 2] == "{") say(L[i], "what a foreign function does is assumed")
        if (T[i] == "trait" && named(T[i + 1])) say(L[i], "the functions of a trait are public, and are not looked at here")
        if (T[i] == "fn" && public) i = head(i)
        public = T[i] == "pub" || T[i] == "extern" || (public && T[i] ~ /^(""|unsafe|const|async)$/)
    }
}
# The fields of a struct, for each crate: fields[crate, name] is " a b c ", or "?" where it has two such structs. What a struct or an enum is made of: made_of[name].
function types(i,    j, type, list, depth) {
    type = T[i + 1]; sub(/<.*/, "", type)
    for (j = i + 1; j <= N && T[j] != "{" && T[j] != ";"; j++) made_of[type] = made_of[type] " " T[j]
    for (list = " "; j <= N && T[j] != ";"; j++) {
        if (T[j] == "{" || T[j] == "(") depth++
        if ((T[j] == "}" || T[j] == ")") && !--depth) break
        made_of[type] = made_of[type] " " T[j]
        if (depth == 1 && T[j] ~ /^[a-z_0-9]+:$/) list = list substr(T[j], 1, length(T[j]) - 1) " "
    }
    if (T[i] == "enum") return
    if ((crate, type) in fields && fields[crate, type] != list) list = "?"
    fields[crate, type] = list
}
# Whether a type has a &mut in it, by itself or in what it is made of.
function lends(type,    w, k) {
    if (type ~ /&([^,]* )?mut /) return 1
    gsub(/[^A-Za-z0-9_]/, " ", type)
    for (k = split(type, w, " "); k; k--) {
        if (!(w[k] in made_of) || asked[w[k]]) continue
        asked[w[k]] = 1
        if (lends(made_of[w[k]] " ")) return 1
    }
    return 0
}
# One public function: its parameters and result, then its clauses. Kept until every struct is known.
function head(i,    j, depth, text, clause, said) {
    F++; f_file[F] = file; f_crate[F] = crate; f_line[F] = L[i]
    f_name[F] = T[i + 1]; sub(/[<(].*/, "", f_name[F])
    for (j = i + 1; j <= N && (depth || T[j] !~ /^((ensures|requires)[*]?|[{;])$/); j++) {
        depth += gsub(/[([]/, "&", T[j]) - gsub(/[])]/, "&", T[j])
        text = text " " T[j]
    }
    f_head[F] = text
    for (; T[j] ~ /^(ensures|requires)[*]?$/; ) {
        clause = T[j]
        if (clause ~ /^ensures/) f_said[F]++; else f_asks[F] = 1
        if (clause ~ /[*]$/) f_starred[F] = 1
        for (depth = said = 0; j <= N; j++) {
            if (T[j] == "{") depth++
            if (T[j] == "}") { depth--; if (!depth) break }
            if (clause ~ /^ensures/ && said) f_says[F, f_said[F]] = f_says[F, f_said[F]] " " T[j]
            if (T[j] == "{") said = 1
        }
        j++
    }
    f_opens[F] = operators; f_path[F] = equality; f_lib[F] = names
    return j - 1
}

# ---- A contract ----

# Word k to m of C with its pairs of brackets in pair[].
function pairs(k, m,    i, depth, open) {
    for (i = k; i <= m; i++) { if (C[i] ~ /^[({]$/) open[++depth] = i; else if (C[i] ~ /^[)}]$/) { pair[open[depth]] = i; depth-- } }
}
function dot(t) { return t == "." || t == PROJECT }
# A parameter or a field is one word in a contract, with an underscore too.
function bare(t) { gsub(/^«|»$/, "", t); return t }

# The statement that stands from word k to word m.
function states(k, m,    i, from, joined) {
    while (C[k] == "(" && pair[k] == m) { k++; m-- }
    for (i = from = k; i <= m; i++) {
        if (C[i] ~ /^[({]$/) { i = pair[i]; continue }
        if (C[i] != "×") continue
        joined = 1
        if (!(C[from] == "(" && pair[from] == i - 1)) { wrong("what × joins stands in brackets"); return }
        states(from, i - 1); from = i + 1
    }
    if (!joined) { equation(k, m); return }
    if (!(C[from] == "(" && pair[from] == m)) { wrong("what × joins stands in brackets"); return }
    states(from, m)
}
function equation(k, m,    i, sign, left, n, w) {
    if (C[k] in records) { stated(k, m); return }
    if (C[k] == "IfOk" && C[k + 1] == "result" && C[k + 3] == "λ" && C[k + 5] == ENDS && pair[k + 2] == m && result ~ /Result</) {
        for (i = k + 6; i < m; i++) if (C[i] == C[k + 4] && !dot(C[i - 1])) C[i] = "result"
        states(k + 6, m - 1)
        return
    }
    for (i = k; i <= m && !sign; i++) { if (C[i] ~ /^[({]$/) i = pair[i]; else if (C[i] == "≡") sign = i }
    if (!sign) { wrong("it states no equation: " words(k, m)); return }
    # a left side, or several as a tuple
    if (C[k] == "(" && pair[k] == sign - 1) {
        for (i = n = k + 1; i < sign; i++) {
            if (C[i] ~ /^[({]$/) i = pair[i]
            else if (C[i] == "," || i == sign - 1) { left = left "\n" left_side(n, i - 1); n = i + 1 }
        }
        left = substr(left, 2)
    } else left = left_side(k, sign - 1)
    if (("\n" left "\n") ~ /\n\n/) { wrong("the left side is neither the result, its field nor what is lent: " words(k, sign - 1)); return }
    if (sign == m) { wrong("there is no right side"); return }
    right(sign + 1, m)
    for (n = split(left, w, "\n"); n; n--) { if (w[n] in known) wrong("it says twice what " shown(w[n]) " is"); known[w[n]] }
}
function left_side(k, m) {
    if (m == k && C[k] == "result") return "r"
    if (m == k + 2 && C[k] == "result" && dot(C[k + 1])) return "r ." bare(C[m])
    if (m == k + 2 && dot(C[k + 1]) && C[m] == "new") return "exit " bare(C[k])
}
# A right side: what it names is known, and outside of brackets there are functions, their arguments, and the library's operators that bind closer than ≡.
function right(k, m,    i) {
    mentions(k, m)
    for (i = k; i <= m; i++) {
        if (C[i] ~ /^[({]$/) { i = pair[i]; continue }
        if (dot(C[i])) { i++; continue }
        if (C[i] in closer || !(C[i] in syntax || index(opens, " " C[i] " "))) continue
        wrong("an operator stands outside of brackets on the right side: " C[i])
        return
    }
}
# A name of the result, or of what is lent at the return, that no equation before has determined; and a blank, which could be anything.
function mentions(k, m,    i, bound) {
    for (i = k; i <= m; i++) {
        if (C[i] == "λ") bound = 1
        if (C[i] == ENDS) bound = 0
        if ((C[i] == "_" && !bound) || C[i] ~ /^[?]/) wrong("a blank stands on the right side")
        if (C[i] == "new" && dot(C[i - 1]) && !(("exit " bare(C[i - 2])) in known)) wrong("the right side names a return that is not said yet: " C[i - 2])
        # another thing's field, or the name of a field in a record, is not the result
        if (C[i] != "result" || dot(C[i - 1]) || (C[i + 1] == "=" && C[i - 1] ~ /^[{;]$/)) continue
        if (!("r" in known) && !(dot(C[i + 1]) && ("r ." bare(C[i + 2])) in known)) wrong("the right side names the result itself")
    }
}
# A record of the list: its arguments are the result once, all that is lent at the return once, and otherwise neither.
function stated(k, m,    i, left) {
    for (i = k + 1; i <= m; i++) {
        left = ""
        if (C[i] == "result" && !dot(C[i + 1])) left = "r"
        else if (i + 2 <= m && dot(C[i + 1]) && C[i + 2] == "new") { left = left_side(i, i + 2); i += 2 }
        else if (C[i] == "(") left = left_side(i + 1, pair[i] - 1)
        if (left != "") { if (left in known) wrong("it says twice what " shown(left) " is"); known[left] }
        if (C[i] ~ /^[({]$/) { if (left == "") mentions(i, pair[i]); i = pair[i] }
    }
}
function shown(left) { return left == "r" ? "the result" : left ~ /^r / ? "the field" substr(left, 2) : substr(left, 6) ".new" }
function words(k, m,    i, s) { for (i = k; i <= m; i++) s = s (i > k ? " " : "") (C[i] == PROJECT || C[i] == ENDS ? "." : C[i]); gsub(/[.] /, ".", s); return s }

# The parameters of a head, with what is lent by &mut in mutable[].
function parameters(text,    i, c, s, depth, list, k, w, n, type) {
    for (n in mutable) delete mutable[n]
    for (n in asked) delete asked[n]
    i = index(text, "("); result = ""
    streams = substr(text, 1, i - 1)
    reads = streams ~ /[A-Za-z0-9_]: [^,]*Read([>, ]|$)/
    for (depth = 0; i <= length(text); i++) {
        c = substr(text, i, 1)
        if (c ~ /[([<]/) depth++
        if (c ~ /[])]/ || (c == ">" && substr(text, i - 1, 1) != "-")) { depth--; if (!depth) break }
        list = list (c == "," && depth == 1 ? "\n" : c)
    }
    s = substr(text, i + 1)
    if (match(s, /->/)) { result = substr(s, RSTART + 2); gsub(/^ +| +$/, "", result) }
    if (result != "" && lends(result " ")) wrong("its result lends a &mut, of which nothing is looked at here")
    k = split(substr(list, 2), w, "\n")
    for (i = 1; i <= k; i++) {
        if (!match(w[i], /:/)) { if (w[i] ~ /&.*mut.*self/) mutable["self"]; continue }
        n = substr(w[i], 1, RSTART - 1); type = substr(w[i], RSTART + 1)
        sub(/^ *(mut )? */, "", n); sub(/ +$/, "", n)
        for (c in asked) delete asked[c]
        if (type ~ /^ *&([^,]* )?mut /) { mutable[n]; sub(/^ *&([^,]* )?mut /, "", type) }
        # a writer of a type that the caller chooses
        c = type; gsub(/ /, "", c)
        if (c ~ /^[A-Za-z0-9_]+$/ && streams ~ ("[<, ]" c ": [^,]*Write([>, ]|$)")) delete mutable[n]
        if (lends(type " ")) wrong("the parameter " n " holds a &mut, of which nothing is looked at here")
        if (index(lib, " " n " ")) wrong("the parameter " n " hides a name of the library")
    }
}

# The contract of function f.
function contract(    i, k, n, w, type, list, said) {
    for (n in known) delete known[n]
    parameters(f_head[f])
    if (reads) return
    if (f_starred[f]) { wrong("a starred clause says what is not looked at here"); return }
    if (f_path[f] !~ /^(Rattle[.]std[.]specs[.]Prelude|mathlib[.]Core[.]Path)$/) wrong("≡ is not that of the library")
    said = found
    for (n = 1; n <= f_said[f]; n++) {
        k = split(f_says[f, n], C, " "); C[k + 1] = C[k + 2] = ""
        if (!k) { wrong("it states nothing"); return }
        pairs(1, k)
        states(1, k)
    }
    if (found > said) return
    for (n in mutable) if (!(("exit " n) in known)) wrong("it does not say what is lent as " n " at the return")
    for (n in known) if (n ~ /^exit / && !(substr(n, 6) in mutable)) wrong("what it says of a return is of no &mut: " substr(n, 6))
    if (result == "" || result == "( )") { for (n in known) if (n ~ /^r/) wrong("there is no result"); return }
    if ("r" in known) return
    type = result; sub(/.*Result</, "", type); sub(/^[ &]*/, "", type); sub(/[<\[> ].*/, "", type); sub(/.*::/, "", type)
    list = fields[f_crate[f], type]
    if (list == "?") { wrong("there are several structs " type); return }
    if (list == "") { wrong("it does not say what the result is"); return }
    k = split(list, w, " ")
    for (i = 1; i <= k; i++) if (!(("r ." w[i]) in known)) wrong("it does not say what the result's " w[i] " is")
}

BEGIN {
    split("→ × λ ∀ let in do elim ≡ = ↦ | [ ] ∧ ∨ ↔ ¬ ≢ ⊎ < ≤ ∗ == && || if then else unfold ⌜ ⌝ ; , @ : " ENDS, w, " "); for (k in w) syntax[w[k]]
    split("+ - * / % ^ ∷ ++", w, " "); for (k in w) closer[w[k]]
    split(RECORDS, w, " "); for (k in w) records[w[k]]
}
{
    file = $0; crate = file; sub(/^crates\//, "", crate); sub(/\/.*/, "", crate)
    if (!lex(file, 1)) { say(1, "cannot be read"); next }
    imports(1)
    operators = names = " "; equality = ""
    for (k = 1; k <= U; k++) {
        if (RUST[k] || ITEM[k] == "") continue
        if (AS[k] == "◌≡◌") equality = ITEM[k] == "◌≡◌" ? PATH[k] : ITEM[k]
        if (ours(PATH[k]) == "") names = names AS[k] " "
        if (AS[k] ~ /◌/) for (j = split(AS[k], w, "◌"); j; j--) if (w[j] != "") operators = operators w[j] " "
    }
    heads()
}
END {
    for (f = 1; f <= F; f++) {
        file = f_file[f]; name = f_name[f]; from = f_line[f]; opens = f_opens[f]; lib = f_lib[f]
        if (!f_said[f]) say(from, "public function " name " has no ensures")
        if (f_asks[f]) say(from, "public function " name " has a requires")
        if (f_said[f]) contract()
    }
    file = "crates.txt"
    if (!F) say(1, "there is no public function")
    if (found) exit 1
    printf "audit: %d public functions, all stated\n", F
}
