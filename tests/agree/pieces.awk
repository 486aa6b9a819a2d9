# Pieces of Rattle or Rust text, for the files beside this one.

# What stands in a piece behind the first OPEN and before the last SHUT, with no comma at its end.
function inside(piece, open, shut) {
    piece = substr(piece, index(piece, open) + 1)
    sub("[" shut "][^" shut "]*$", "", piece)
    sub(/^ */, "", piece)
    sub(/,? *$/, "", piece)
    return piece
}

# The word of a piece behind the last BEFORE.
function word_behind(piece, before) {
    sub("^.*" before " ", "", piece)
    sub(/[^A-Za-z0-9_].*/, "", piece)
    return piece
}

# Takes what PATTERN matches off the front of rest, with all before it, into piece; says whether it did.
function took(pattern) {
    if (!match(rest, pattern)) return 0
    piece = substr(rest, RSTART, RLENGTH)
    rest = substr(rest, RSTART + RLENGTH)
    return 1
}
