# What every file must be. (c) No proof uses the axioms `lem` and `ac`. (d) crates/ and crates.txt name the same crates. (e) No file names a path of one machine or a registry of packages.
# (f) Each source and proof begins with its subject. Its input: the folders of crates/, with a slash behind each, and all files.
function say(line, what) { print file ":" line ": " what; found++ }

# A line without its comments, and with nothing in its texts. A block comment may go on over lines.
function bare(s,    i, hit, out) {
    for (;;) {
        if (deep) { if (!(i = index(s, "-}"))) return out; s = substr(s, i + 2); deep = 0 }
        if (!match(s, TEXT "|[{]-|(^|[ \t()}.;,@])--")) return out s
        hit = substr(s, RSTART, RLENGTH); out = out substr(s, 1, RSTART - 1) (hit ~ /^"/ ? "\"\"" : " ")
        s = substr(s, RSTART + RLENGTH)
        if (hit == "{-") deep = 1; else if (hit !~ /^"/) return out
    }
}
function proof(s,    k, w) {
    s = bare(s)
    gsub(/[(){}.;,@"]|«|»/, " ", s)
    for (k = split(s, w, " "); k; k--) if (w[k] ~ /^(lem|ac|axiom|Axiom)$/) say(n, "axiom: " w[k])
}

function look(s) {
    if (file ~ /^crates\/[^\/]*\/(proofs|specs)\/.*\.antt$/) proof(s)
    if (file != "tools/audit-files.awk" && s ~ machine) say(n, "a path of one machine")
    if (file != "tools/audit-files.awk" && s ~ registry) say(n, "a registry of packages")
    if (n == 1) untold = (file ~ /\.rt$/ && s !~ /^\/\/ *[^ ]+ [^ ]/) || (file ~ /\.antt$/ && (s !~ /^-- *[^ ]+ [^ ]/ || s ~ /^-- *src\//))
    if (s !~ /^pub mod [^ ]+$/) only_mods = 0   # a Lib.antt that only names modules needs no subject
}

BEGIN {
    machine = "(^|[^A-Za-z0-9_.~)}*-])/(work|tmp|opt|root|home)/"
    registry = "https?://[^/ ]*(registry|crates[.]io|npmjs|yarnpkg|pypi|pythonhosted|rubygems|proxy[.]golang|maven|nexus|artifactory|docker|ghcr[.]io|deb[.]debian|archive[.]ubuntu|hackage|conda)"
    for (file = "crates.txt"; (getline s < file) > 0; ) {
        row++; sub(/#.*/, "", s); sub(/:.*/, "", s); sub(/ +staticlib *$/, "", s); gsub(/[ \t]/, "", s)
        if (s != "") { listed[s] = row; crates++ }
    }
}
/\/$/ { file = substr($0, 1, length($0) - 1); c = substr(file, 8); folder[c] = 1; if (!(c in listed)) say(1, "crates.txt does not list " c); next }
{
    file = $0; n = deep = 0; only_mods = (file ~ /(^|\/)Lib\.antt$/); untold = (file ~ /\.(rt|antt)$/)
    while ((got = (getline s < file)) > 0) { n++; look(s) }
    if (got < 0) say(1, "cannot be read"); else close(file)
    if (untold && !only_mods) say(1, "the first line does not say the subject")
}
END {
    file = "crates.txt"
    for (c in listed) if (!(c in folder)) say(listed[c], "crates/" c " is not there")
    if (!crates) say(1, "nothing to audit here")
    if (found) exit 1
    printf "audit: %d crates, as crates.txt names them\n", crates
}
