# Prints a C file that compiles only with a header that agrees with the sources that sources.awk reads: every C function
# declared again as its Rattle signature gives it, every struct with the same fields at the same places, every answer
# number and every limit of the store.

# The C name of a struct: ItemAnswer is snowknoll_item_answer.
function c_name(name,    i, letter, made) {
    for (i = 1; i <= length(name); i++) {
        letter = substr(name, i, 1)
        made = made (letter ~ /[A-Z]/ ? "_" tolower(letter) : letter)
    }
    return "snowknoll" made
}

# The C words of a Rattle type that is passed by value.
function c_type(type) {
    if (type == "u8") return "uint8_t"
    if (type == "u16") return "uint16_t"
    if (type == "u32") return "uint32_t"
    if (type == "usize") return "size_t"
    if (type ~ /^[A-Z][A-Za-z]*$/) { used[type] = 1; return c_name(type) }
    return "no C type for " type
}

# The C arguments of a Rattle argument: a slice is two, a reference to an array one, all else one.
function c_argument(type, name,    constant) {
    if (type !~ /^&/) return c_type(type) " " name
    constant = type ~ /^&mut / ? "" : "const "
    type = between(type)
    if (type !~ /;/) return constant c_type(type) " *" name ", size_t " name "_length"
    sub(/;.*/, "", type)
    return constant c_type(type) " *" name
}

# A line that compiles only where a test holds.
function print_test(test, what) {
    print "_Static_assert(" test ", \"" what "\");"
}

# One struct: the same size, and each field of its type at its place.
function print_struct(name, n,    k, made, body, field) {
    known[name] = 1
    made = c_name(name)
    for (k = 1; k <= n; k++) body = body " " c_type(types[k]) " " names[k] ";"
    print "struct own_" made " {" body " };"
    print_test("sizeof(" made ") == sizeof(struct own_" made ")", "the size of " made)
    for (k = 1; k <= n; k++) {
        field = ", " names[k] ")"
        print_test("offsetof(" made field " == offsetof(struct own_" made field, "the place of " names[k] " in " made)
        field = "((" made " *)0)->" names[k]
        print_test("_Generic(" field ", " c_type(types[k]) ": 1, default: 0)", "the type of " names[k] " in " made)
    }
}

# One function, declared again.
function print_function(name, n, answer,    k, arguments) {
    for (k = 1; k <= n; k++) arguments = arguments (k > 1 ? ", " : "") c_argument(types[k], names[k])
    print c_type(answer) " " name "(" arguments ");"
}

# One answer number.
function print_answer(name, number) {
    print_test("SNOWKNOLL_" toupper(name) " == " number, "the number of " name)
}

# One limit of the store.
function print_limit(name, number) {
    print_test((name in limits ? limits[name] : name) " == " number, "the limit " name)
}

BEGIN {
    print "#include \"snowknoll.h\""
    limits["row_limit"] = "SNOWKNOLL_MAX_ROWS"
    limits["author_limit"] = "SNOWKNOLL_MAX_AUTHORS"
    limits["dep_limit"] = "SNOWKNOLL_MAX_DEPENDENCIES"
    limits["row_dep_limit"] = "SNOWKNOLL_MAX_MESSAGE_DEPENDENCIES"
    limits["branch_limit"] = "SNOWKNOLL_BRANCHES_LENGTH"
}
END {
    for (name in used) if (!(name in known)) print "#error \"" name " is not a C struct\""
}
