# Reads Rattle sources, and hands what C sees of them to the file that is read behind this one: each C struct to
# print_struct, each C function to print_function, each answer number to print_answer, each limit of the store to
# print_limit. names and types have the fields of the struct or the arguments of the function, from 1 on.

# Splits `name: type, name: type` into names and types; returns how many.
function fields(text,    parts, n, k, at) {
    n = split(text, parts, ", ")
    for (k = 1; k <= n; k++) {
        at = index(parts[k], ": ")
        names[k] = substr(parts[k], 1, at - 1)
        sub(/^pub /, "", names[k])
        types[k] = substr(parts[k], at + 2)
    }
    return n
}

# What stands between the brackets of a slice, or of an array behind a reference; a slice has no length there.
function between(type) {
    sub(/^&(mut )?\[/, "", type)
    sub(/\]$/, "", type)
    return type
}

/^ *(\/\/|--)/ { next }
$1 == "number_of" && $3 == "=" { print_answer($2, $4) }
$1 == "answer_number" && $NF ~ /^[0-9]+$/ { print_answer(substr($2, 2), $NF) }
/^[a-z_]*_limit = [0-9]+$/ { print_limit($1, $3) }
{ text = text " " $0 }
END {
    gsub(/ +/, " ", text)
    marks = gsub(/#\[(repr\(C\)|unsafe\(no_mangle\))\]/, "&", text)
    for (rest = text; took("#\\[repr\\(C\\)\\] (#\\[derive\\([A-Za-z, ]*\\)\\] )?pub struct [A-Za-z]+ \\{[^}]*\\}"); marks--)
        print_struct(word_behind(piece, "struct"), fields(inside(piece, "{", "}")))
    for (rest = text; took("#\\[unsafe\\(no_mangle\\)\\] pub extern \"C\" fn [a-z_]+\\([^()]*\\) -> [A-Za-z0-9]+"); marks--) {
        sub(/^.* fn /, "fn ", piece)
        print_function(word_behind(piece, "fn"), fields(inside(piece, "(", ")")), word_behind(piece, "->"))
    }
    if (marks != 0) print "not read: " marks " C structs and functions"
}
