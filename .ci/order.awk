# Reads the tree that clang makes of a C file, and prints where C leaves the order of two changes open. Read by .ci/order. 'file' is the file's name.

# A node at depth d is the part at[d] of the node above it; open[d] says that C leaves the order of its parts open, and changed[d] is the part that has
# a call which can change something.
function change(d,   a) {
    for (a = 1; a < d; a++) {
        if (!open[a]) continue
        if (changed[a] && changed[a] != at[a + 1]) {
            if (!told[line[a] kind[a]]++) print file ":" line[a] ": in " name ", the order of two parts of a " kind[a] " is open"
        }
        changed[a] = at[a + 1]
    }
}

{
    d = (match($0, /[A-Za-z<]/) - 1) / 2 + 1
    text = substr($0, RSTART)
    kind[d] = text
    sub(/ .*/, "", kind[d])
    for (a = d + 1; a <= deepest; a++) at[a] = 0
    if (d > deepest) deepest = d
    at[d]++
    if (match(text, /(line|\.[ch]):[0-9]+:[0-9]+/)) {
        now = substr(text, RSTART, RLENGTH)
        sub(/^[^:]*:/, "", now)
        sub(/:.*/, "", now)
    }
    line[d] = now
    changed[d] = 0
    open[d] = kind[d] ~ /^(CallExpr|ArraySubscriptExpr|InitListExpr|CompoundAssignOperator)$/ \
        || (kind[d] == "BinaryOperator" && text !~ / \047(&&|\|\||,)\047$/)
}

kind[d] == "FunctionDecl" { name = text; sub(/ \047.*/, "", name); sub(/.* /, "", name) }

# a call of a function by its name: the first part of the call is the name
kind[d] == "DeclRefExpr" && d > 2 && kind[d - 2] == "CallExpr" && at[d - 1] == 1 && / Function 0x/ {
    called = text
    sub(/.* Function 0x[0-9a-f]* \047/, "", called)
    type = called
    sub(/\047.*/, "", called)
    sub(/^[^\047]*\047 \047[^(]*/, "", type)
    gsub(/const [a-z0-9_ ]* \*/, "", type)
    if (type ~ /\*/ || called ~ /^random_/) change(d - 2)
}

# a call through a pointer
kind[d] == "ImplicitCastExpr" && d > 1 && kind[d - 1] == "CallExpr" && at[d] == 1 && /<LValueToRValue>$/ { change(d - 1) }
