# Prints the declarations for Rust of the sources that sources.awk reads, in the form in which raw.awk prints those that
# bindings/rust has: a line for each struct, function, answer number and limit.

# The Rust arguments of a Rattle argument: a slice is two, all else one.
function rust_argument(type, name,    pointer) {
    if (type !~ /^&/) return name ": " type
    pointer = name ": " (type ~ /^&mut / ? "*mut " : "*const ")
    type = between(type)
    if (type ~ /;/) return pointer "[" type "]"
    return pointer type ", " name "_len: usize"
}

# One struct.
function print_struct(name, n,    k, body) {
    for (k = 1; k <= n; k++) body = body (k > 1 ? ", " : "") names[k] ": " types[k]
    print "struct " name " { " body " }"
}

# One function.
function print_function(name, n, answer,    k, arguments) {
    for (k = 1; k <= n; k++) arguments = arguments (k > 1 ? ", " : "") rust_argument(types[k], names[k])
    print "fn " name "(" arguments ") -> " answer
}

# One answer number.
function print_answer(name, number) {
    print "answer " name " = " number
}

# One limit of the store. Two have no name in Rust: the dependencies of one message are the item's matter, and the numbers
# of branches are those of the authors and of the rows.
function print_limit(name, number) {
    if (name != "row_dep_limit" && name != "branch_limit") print "limit " (name in limits ? limits[name] : name) " = " number
}

BEGIN {
    limits["row_limit"] = "MOST_ROWS"
    limits["author_limit"] = "MOST_AUTHORS"
    limits["dep_limit"] = "MOST_DEPENDENCIES"
}
