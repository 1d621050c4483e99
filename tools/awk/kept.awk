# Of one Rattle file, in the kit's layout: the text of a function `kept_here` that names each function of the file, and calls the same of the files below it. What
# calls it reaches them all. The variable only, if given, is the beginning of the names that are wanted.
# A function with a type parameter stands for no code of its own: where there is one it says so and fails.

function types(text, owner,    depth, from, i, c, part, out) {
    depth = 0
    from = 1
    out = ""
    text = text ","
    for (i = 1; i <= length(text); i++) {
        c = substr(text, i, 1)
        if (c ~ /[([<{]/) depth++
        if (c ~ /[])}]/ || c == ">" && substr(text, i - 1, 1) != "-") depth--
        if (c != "," || depth > 0) continue
        part = substr(text, from, i - from)
        from = i + 1
        gsub(/^ +| +$/, "", part)
        if (part == "") continue
        if (part ~ /^(mut )?self$/) part = owner
        else if (part == "&self") part = "&" owner
        else if (part == "&mut self") part = "&mut " owner
        else sub(/^[^:]*: */, "", part)
        out = out (out == "" ? "" : ", ") part
    }
    return out
}

# The place of the bracket that closes the one at the place.
function closing(text, at,    depth, c) {
    for (depth = 0; at <= length(text); at++) {
        c = substr(text, at, 1)
        if (c == "(") depth++
        if (c == ")" && --depth == 0) return at
    }
    return 0
}

function keep(text,    name, at, end, lives, given, result) {
    name = text
    sub(/^.*fn /, "", name)
    sub(/[(<].*$/, "", name)
    if (only != "" && index(name, only) != 1) return
    at = index(text, "(")
    end = closing(text, at)
    lives = ""
    if (match(substr(text, 1, at), /<.*>/)) lives = substr(text, RSTART, RLENGTH)
    if (lives != "" && lives !~ /^<('[a-z]+,? ?)+>$/) { print FILENAME ": " name " has a type parameter" > "/dev/stderr"; exit bad = 1 }
    given = types(substr(text, at + 1, end - at - 1), owner)
    result = substr(text, end + 1)
    sub(/ *\{ *(.*\})? *$/, "", result)
    gsub(/^ +| +$/, "", result)
    text = (lives == "" ? "" : "for" lives " ") "fn(" given ")" (result == "" ? "" : " " result)
    while (owner != "" && match(text, /(^|[^A-Za-z0-9_])Self($|[^A-Za-z0-9_])/)) {
        at = index(substr(text, RSTART), "Self") + RSTART - 1
        text = substr(text, 1, at - 1) owner substr(text, at + 4)
    }
    body = body "    let _kept" ++count ": " text " = " (owner == "" ? "" : owner "::") name ";\n"
}

{ line = $0; sub(/(^| )\/\/.*$/, "", line) }
head != "" {
    sub(/^ +/, "", line)
    head = head (head ~ /\($/ || line ~ /^\)/ ? "" : " ") line
    if (closing(head, index(head, "("))) { keep(head); head = "" }
    next
}
line ~ /^impl / { owner = line; sub(/^impl (.* for )?/, "", owner); sub(/ *\{.*$/, "", owner) }
line ~ /^\}/ { owner = "" }
line ~ /^(pub )?mod [a-z_0-9]+;/ { sub(/^(pub )?mod /, "", line); sub(/;.*$/, "", line); below = below "    " line "::kept_here();\n" }
line ~ /^ *(pub(\([a-z]+\))? )?(const )?fn / {
    sub(/^ +/, "", line)
    head = line
    if (closing(head, index(head, "("))) { keep(head); head = "" }
}
END { if (bad) exit 1; printf "\npub fn kept_here() {\n%s%s}\n", body, below }
