# Writes each deck of tests/deck-faults, and each text of tests/program-faults in a pair of its own, to a file of its own in the
# folder `scratch`. It lists them, each by the file's number and its heading. How they are written down is told at the beginning of
# those files.
function refuse(why) {
    print FILENAME ", up to line " FNR ": " why | "cat >&2"
    refused = 1
    exit 1
}
function byte(digits, high, low) {
    high = index("0123456789abcdef", substr(digits, 1, 1))
    low = index("0123456789abcdef", substr(digits, 2, 1))
    if (length(digits) < 2 || high == 0 || low == 0) refuse("no byte: \\x" digits)
    return 16 * (high - 1) + low - 1
}
# The number and the piece at the front of the text, as 33{(}, are written; what stands after them is given back.
function put_pieces(text, open, end, count, piece, copy, k) {
    open = index(text, "{")
    end = index(text, "}")
    if (text !~ /^[0-9]+[{][^}]*[}]/) refuse("no piece: \\" text)
    count = text + 0
    piece = substr(text, open + 1, end - open - 1)
    gsub(/\\n/, "\n", piece)
    for (k = 0; k < count; k++) {
        copy = piece
        # Where nothing is to be replaced gsub is left out, which is slow in some awks.
        if (index(piece, "%") > 0) gsub(/%/, k, copy)
        printf "%s", copy >deck
    }
    return substr(text, end + 1)
}
function put_line(text, at, sign) {
    while ((at = index(text, "\\")) > 0) {
        printf "%s", substr(text, 1, at - 1) >deck
        sign = substr(text, at + 1, 1)
        text = substr(text, at + 2)
        if (sign == "c" && text == "") return
        if (sign ~ /[0-9]/) text = put_pieces(sign text)
        else if (sign == "n") printf "\n" >deck
        else if (sign == "t") printf "\t" >deck
        else if (sign == "r") printf "\r" >deck
        else if (sign == "\\") printf "\\" >deck
        else if (sign == "x") {
            printf "%c", byte(substr(text, 1, 2)) >deck
            text = substr(text, 3)
        } else if (sign != "e") refuse("no such sign: \\" sign)
    }
    printf "%s\n", text >deck
}
function put_lines(text, count, copy, k) {
    if (text !~ /^@[0-9]+ /) {
        put_line(text)
        return
    }
    count = substr(text, 2) + 0
    sub(/^@[0-9]+ /, "", text)
    if (index(text, "%") == 0) {
        for (k = 0; k < count; k++) put_line(text)
        return
    }
    for (k = 0; k < count; k++) {
        copy = text
        gsub(/%/, k, copy)
        put_line(copy)
    }
}
# The deck of all lines but those that are one of several, with the one of these that has this number.
function put_deck(chosen, k, text) {
    deck = scratch "/" ++decks
    printf "" >deck
    text = what
    for (k = 1; k <= lines; k++)
        if (k == chosen) {
            put_lines(substr(line[k], 3))
            text = what ": " substr(line[k], 3)
        } else if (line[k] !~ /^\| /) put_lines(line[k])
    close(deck)
    print decks, text " -> " wanted
}
function put_decks(k, several) {
    if (what == "") return
    for (k = 1; k <= lines; k++)
        if (line[k] ~ /^\| /) {
            several = 1
            put_deck(k)
        }
    if (!several) put_deck(0)
    what = ""
}
# The deck of a pair with the text of the line.
function put_program(at) {
    at = index($0, ": ")
    wanted = substr($0, 1, at - 1)
    wanted = wanted == "read" ? "a deck" : "DECK 3 2 " wanted
    deck = scratch "/" ++decks
    printf "processors 2\ndisc $PEER 0 1 8\npair $P 0 1\n" >deck
    put_line(substr($0, at + 2))
    printf ".\nschedule\nEND\n" >deck
    close(deck)
    print decks, $0 " -> " wanted
}
FNR == 1 {
    put_decks()
    titled = 0
}
/^= / {
    put_decks()
    titled = 1
    next
}
FILENAME ~ /program-faults$/ {
    if (/^(read|[0-9]+ [0-9]+ [0-9]+( [0-9]+)?): /) put_program()
    else if (titled && $0 != "") refuse("neither a title nor a text")
    next
}
/^== .+ -> (a deck|DECK [0-9]+( [0-9]+)+)$/ {
    put_decks()
    at = index($0, " -> ")
    what = substr($0, 4, at - 4)
    wanted = substr($0, at + 4)
    lines = 0
    next
}
/^=/ { refuse("neither a title nor a heading") }
what != "" && $0 != "" { line[++lines] = $0 }
END {
    if (refused) exit 1
    put_decks()
    if (refused) exit 1
}
