# Prints what a must-fail edit changes: 'program', 'contract' (and nothing else of src/), 'specs', 'proofs', or 'unfit' where it cannot be made. Read by .ci/edits.
# 'folder' is that of its crate.

# The text of a file without comments, imports of definitions, contracts and words to the prover's tactics.
function code(text,   out, depth, at, letter) {
    gsub(/\n[ \t]*\/\/[^\n]*/, "", text)
    gsub(/\nghost use [^;]*;/, "", text)
    gsub(/\n[ \t]*#!?\[tactic\([^\n]*/, "", text)
    out = ""
    while (match(text, /[ \t\n](ensures|requires)[*]?([ \t\n]+[a-z_][A-Za-z0-9_]*)?[ \t\n]*[{]/)) {
        out = out substr(text, 1, RSTART)
        text = substr(text, RSTART + RLENGTH)
        depth = 1
        for (at = 1; depth > 0 && at <= length(text); at++) {
            letter = substr(text, at, 1)
            depth += (letter == "{") - (letter == "}")
        }
        text = substr(text, at)
    }
    out = out text
    gsub(/[ \t\n]+/, " ", out)
    return out
}

# The text of a file of the crate, behind one line end.
function load(name,   row) {
    if (name in now) return
    now[name] = "\n"
    while ((getline row < (folder name)) > 0) now[name] = now[name] row "\n"
    close(folder name)
    was[name] = now[name]
}

/^file: / { name = substr($0, 7) }
/^old: / { old = substr($0, 6) }
/^new:/ {
    new = substr($0, 5)
    sub(/^ /, "", new)
    load(name)
    at = index(now[name], old)
    rest = substr(now[name], at + length(old))
    if (old == "" || !at || index(rest, old)) unfit = 1
    now[name] = substr(now[name], 1, at - 1) new rest
    pairs++
}
END {
    for (name in now) {
        if (now[name] == was[name]) continue
        part = name
        sub(/\/.*/, "", part)
        if (part == "src") part = code(now[name]) == code(was[name]) ? "contract" : "program"
        seen[part] = 1
    }
    if (unfit || !pairs) print "unfit"
    else if ("program" in seen) print "program"
    else if ("contract" in seen) print "contract"
    else if ("specs" in seen) print "specs"
    else if ("proofs" in seen) print "proofs"
    else print "unfit"
}
