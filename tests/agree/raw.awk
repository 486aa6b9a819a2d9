# Reads bindings/rust/src/raw.rs, and prints a line for each struct that is laid as C lays it and for each C function.
# What has no form that it knows it prints as not read, so that nothing is passed over.

# Joins two lists of arguments.
function joined(one, other) {
    return one (one != "" && other != "" ? ", " : "") other
}

# Prints the functions at the front of rest, each with the arguments STORE before its own, or where its own have a semicolon,
# and takes the closing brace.
function print_functions(store,    own, answer, at) {
    while (took("^ ?(pub )?fn [a-z_]+\\([^()]*\\) -> [A-Za-z0-9]+;")) {
        own = inside(piece, "(", ")")
        answer = word_behind(piece, "->")
        at = match(own, /; [a-z_]+:/)
        own = at ? joined(joined(substr(own, 1, at - 1), store), substr(own, at + 2)) : joined(store, own)
        print "fn " word_behind(piece, "fn") "(" own ") -> " answer
    }
    if (!took("^ \\} ?")) not_read()
}

# Says what is not read, and ends.
function not_read() {
    print "not read: " rest
    exit
}

BEGIN {
    head = "macro_rules! over_a_store { ($(fn $function:ident($($more:ident: $kind:ty),*) -> $answer:ty;)*) => { " \
        "extern \"C\" { $(pub fn $function( "
    into_head = "macro_rules! into_a_store { ($(fn $function:ident($($first:ident: $sort:ty),*; $($more:ident: $kind:ty),*) " \
        "-> $answer:ty;)*) => { extern \"C\" { $(pub fn $function( $($first: $sort,)* "
    tail = " $(, $more: $kind)* ) -> $answer;)* } }; } "
}
/^ *\/\// { next }
{ rest = rest $0 " " }
END {
    gsub(/ +/, " ", rest)
    sub(/^ /, "", rest)
    while (rest != "") {
        if (took("^#\\[repr\\(C\\)\\] (#\\[derive\\([A-Za-z, ]*\\)\\] )?pub struct [A-Za-z]+ \\{[^{}]*\\} ?")) {
            fields = inside(piece, "{", "}")
            gsub(/pub /, "", fields)
            print "struct " word_behind(piece, "struct") " { " fields " }"
        } else if (index(rest, head) == 1 && (end = index(rest, tail)) > 0) {
            store = substr(rest, length(head) + 1, end - length(head) - 1)
            rest = substr(rest, end + length(tail))
        } else if (index(rest, into_head) == 1 && (end = index(rest, tail)) > 0) {
            written = substr(rest, length(into_head) + 1, end - length(into_head) - 1)
            rest = substr(rest, end + length(tail))
        } else if (took("^over_a_store! \\{")) {
            print_functions(store)
        } else if (took("^into_a_store! \\{")) {
            print_functions(written)
        } else if (took("^extern \"C\" \\{")) {
            print_functions("")
        } else not_read()
    }
}
