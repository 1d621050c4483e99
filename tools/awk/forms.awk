# For tools/forms, behind reading.awk.

FNR == 1 { file = FILENAME; if (file !~ /\.md$/) module = module_of_file(file) }

file ~ /\.md$/ { read_page($0); next }

file ~ /\/proofs\// { read_law($0); next }

file ~ /\.antt$/ { read_antt(module, $0); next }

{
    read_rattle(module, $0)
    line = $0
    gsub(/[\200-\277]/, "", line)
    if (length(line) > 160) { print FILENAME ":" FNR ": " length(line) " characters, and 160 are the most"; found++ }
}

# ---- the page: two tables, their functions in the first column between backquotes, * for any part of a name

function read_page(line,    column, piece, n, i) {
    if (line ~ /^<!-- (exceptions|requires) -->$/) { table = line; gsub(/[^a-z]/, "", table); marks[table] = 1; return }
    if (line ~ /^<!-- \//) { table = ""; return }
    if (table == "" || line !~ /^\|/) return
    split(line, column, "|")
    n = split(column[2], piece, "`")
    for (i = 2; i <= n; i += 2) { names[table]++; name_of[table, names[table]] = piece[i]; page_line[table, names[table]] = FNR }
}

# Whether a table names the function; its entry is then used.
function is_named(table, f,    i, pattern, yes) {
    for (i = 1; i <= names[table]; i++) {
        pattern = name_of[table, i]
        gsub(/\*/, ".*", pattern)
        if (f ~ ("^" pattern "$")) { entry_used[table, i] = 1; yes = 1 }
    }
    return yes
}

# ---- laws: a definition that tells its argument, by a law of the form `(a b : X) -> f a = f b -> a = b`

function read_law(line,    word, n, i) {
    if (line !~ /^pub .* : \(a b : /) return
    n = split(line, word, " ")
    for (i = 1; i + 9 <= n; i++)
        if (word[i] == "\342\206\222" && word[i + 2] == "a" && word[i + 3] == "\342\211\241" && word[i + 4] == word[i + 1] && word[i + 5] == "b" \
            && word[i + 6] == "\342\206\222" && word[i + 7] == "a" && word[i + 8] == "\342\211\241" && word[i + 9] == "b") tells_all[word[i + 1]] = 1
}

# ---- forms

# The pieces of a text at the sign, where it stands outside all brackets; answers how many.
function cut_at(text, sign, into,    word, n, i, depth, k, opens, closes) {
    n = split(text, word, " ")
    split("", into)
    k = 1
    for (i = 1; i <= n; i++) {
        if (depth == 0 && word[i] == sign) { k++; continue }
        into[k] = into[k] == "" ? word[i] : into[k] " " word[i]
        opens = closes = word[i]
        depth += gsub(/[({]/, "", opens) - gsub(/[)}]/, "", closes)
    }
    return k
}

# A head and its arguments: words, and what stands in brackets as one; answers how many there are.
function arguments(text, into,    word, n, i, depth, k, opens, closes) {
    n = split(text, word, " ")
    split("", into)
    for (i = 1; i <= n; i++) {
        if (depth == 0) into[++k] = word[i]
        else into[k] = into[k] " " word[i]
        opens = closes = word[i]
        depth += gsub(/[({]/, "", opens) - gsub(/[)}]/, "", closes)
    }
    for (i = 1; i <= k; i++) into[i] = bare(into[i])
    return k
}

# Without the brackets around the whole.
function bare(text,    i, n, depth, sign) {
    gsub(/^ +| +$/, "", text)
    if (text !~ /^\(.*\)$/) return text
    n = length(text)
    for (i = 1; i <= n; i++) {
        sign = substr(text, i, 1)
        if (sign == "(") depth++
        if (sign == ")" && --depth == 0 && i < n) return text
    }
    return bare(substr(text, 2, n - 2))
}

# What the text gives, into given[depth, part]: it must be a product of equations whose left sides are such parts, or of forms that give them, and no
# part that is given may stand elsewhere. `parts` are the parts that may be given, each in a line. Answers whether it is one.
function gives(text, module, depth, parts,    factor, side, word, n, m, i, k, id, rights) {
    n = cut_at(bare(text), "\303\227", factor)
    for (i = 1; i <= n; i++) {
        factor[i] = bare(factor[i])
        # an implication or a choice is no equation
        if (cut_at(factor[i], "\342\206\222", side) > 1 || cut_at(factor[i], "\342\212\216", side) > 1) return 0
        m = cut_at(factor[i], "\342\211\241", side)
        if (m == 2) {
            if (!give_all(depth, bare(side[1]), module, parts) && !give_told(depth, bare(side[1]), parts)) return 0
            rights = rights " " side[2]
            continue
        }
        if (m != 1) return 0
        k = arguments(factor[i], word)
        id = resolve(module, word[1], 0)
        if (!is_form(id, depth + 1)) return 0
        for (; k > 1; k--) {
            if ((id SUBSEP k - 1) in form_tells && !(word[k] in tells_all)) return 0
            if (!((id SUBSEP k - 1) in form_gives)) rights = rights " " word[k]
            else if (!give_all(depth, word[k], module, parts)) return 0
        }
    }
    n = split(parts, word, "\n")
    for (i = 1; i <= n; i++) if ((depth SUBSEP word[i]) in given && stands_in(word[i], rights)) return 0
    return 1
}

# What is told of a part, `told a`: `told` is a parameter of the form, and who cites the form must put a definition there that tells its argument.
function give_told(depth, text, parts,    word) {
    if (arguments(text, word) != 2 || index(parts, "\n" word[1] "\n") == 0 || (depth SUBSEP word[1]) in given) return 0
    return told_by[depth, word[1]] = give(depth, word[2], parts)
}

# A part, or several gathered by a definition that makes a record of its arguments, as in `both x.new y.new`.
function give_all(depth, text, module, parts,    word, n, i) {
    if (index(parts, "\n" text "\n") > 0) return give(depth, text, parts)
    n = arguments(text, word)
    if (n < 2 || !gathers(resolve(module, word[1], 0), n - 1)) return 0
    for (i = 2; i <= n; i++) if (!give_all(depth, word[i], module, parts)) return 0
    return 1
}

# Whether a definition makes a record whose fields are its n parameters, each once.
function gathers(id, n,    text, name, i, k, parameter, body, field) {
    if (!(id in defined) || kind_at[id] != "definition") return 0
    name = name_at[id]
    text = text_at[id]
    i = index(text, "\n" name " ")
    body = substr(text, i + 1 + length(name))
    k = index(body, " =")
    if (i == 0 || k == 0 || split(substr(body, 1, k), parameter, " ") != n) return 0
    body = substr(body, k + 2)
    if (body !~ /^[ \n]*record \{.*\}[ \n]*$/) return 0
    gsub(/\n/, " ", body)
    sub(/^ *record \{ */, "", body)
    sub(/;? *\} *$/, "", body)
    if (split(body, field, ";") != n) return 0
    for (i = 1; i <= n; i++) {
        sub(/^[^=]*= */, "", field[i])
        sub(/ *$/, "", field[i])
        for (k = 1; k <= n && field[i] != parameter[k]; k++) ;
        if (k > n) return 0
        parameter[k] = ""
    }
    return 1
}

function give(depth, part, parts) {
    if (index(parts, "\n" part "\n") == 0 || (depth SUBSEP part) in given) return 0
    return given[depth, part] = 1
}

# Whether a part of the outcome stands in the text.
function stands_in(part, text,    word, n, i) {
    n = words(text, word)
    for (i = 1; i <= n; i++) if (word[i] == part || index(word[i], part ".") == 1) return 1
    return 0
}

# Whether a definition is a form: its one clause is a product of equations for some of its parameters, each given once. A record is one by its fields.
# form_gives[id, n] then holds for the parameters that it gives, by their places.
function is_form(id, depth,    text, head, parameter, n, i, parts, name, field, m, all, body) {
    if (id in form_known) return form_known[id]
    form_known[id] = 0
    if (!(id in defined) || kind_at[id] != "definition" && kind_at[id] != "record") return 0
    name = name_at[id]
    text = text_at[id]
    if (kind_at[id] == "definition") {
        i = index(text, "\n" name " ")
        if (i == 0) return 0
        body = substr(text, i + 1 + length(name))
        i = index(body, " =")
        if (i == 0 || index(body, "\n" name " ") > 0) return 0
        n = split(substr(body, 1, i), parameter, " ")
        body = substr(body, i + 2)
        gsub(/\n/, " ", body)
    }
    else {
        head = text
        sub(/ : Type.*$/, "", head)
        sub(/^[^(]*/, "", head)
        n = 0
        while (match(head, /\([^:]*:/)) {
            m = split(substr(head, RSTART + 1, RLENGTH - 2), field, " ")
            for (i = 1; i <= m; i++) parameter[++n] = field[i]
            head = substr(head, RSTART + RLENGTH)
        }
        m = split(text, field, "\n")
        body = ""
        for (i = 2; i <= m; i++) {
            if (field[i] ~ /^ *$/) continue
            if (!sub(/^ *(pub )?[^ ]+ : /, "", field[i])) return 0
            body = body (body == "" ? "" : " \303\227 ") "(" field[i] ")"
        }
    }
    parts = "\n"
    for (i = 1; i <= n; i++) parts = parts parameter[i] "\n"
    for (all in given) if (index(all, depth SUBSEP) == 1) delete given[all]
    for (all in told_by) if (index(all, depth SUBSEP) == 1) delete told_by[all]
    if (!gives(body, module_at[id], depth, parts)) return 0
    for (i = 1; i <= n; i++) if ((depth SUBSEP parameter[i]) in given) form_gives[id, i] = 1
    for (i = 1; i <= n; i++) if ((depth SUBSEP parameter[i]) in told_by) form_tells[id, i] = 1
    return form_known[id] = 1
}

# What is open in a function's outcome, or nothing.
function open_in(f,    text, parts, signature, name, rest, part, n, i, all, out) {
    text = text_of[f, "ensures"]
    signature = text_of[f, "signature"]
    if (has_ensures[f] > 1) return "two clauses"
    if (!match(text, /^ *ensures ([a-z_]+ )?\{/)) return "a clause of another shape"
    text = substr(text, RSTART + RLENGTH)
    if (!match(text, /\} *$/)) return "a clause of another shape"
    text = substr(text, 1, RSTART - 1)
    parts = "\n"
    if (signature ~ /\) *->/) parts = parts "result\n"
    rest = signature
    while (match(rest, /[a-z_][a-z0-9_]*: *&('[a-z]+ )?mut /)) {
        name = substr(rest, RSTART, RLENGTH)
        sub(/:.*$/, "", name)
        parts = parts name ".new\n"
        rest = substr(rest, RSTART + RLENGTH)
    }
    if (signature ~ /-> *&/) return "where the part handed out lies"
    for (all in given) delete given[all]
    if (!gives(text, src_at[f], 0, parts)) return "no equation of its outcome alone"
    if (cut_at(bare(text), "\303\227", part) > 1) return "several equations: cite one form"
    n = split(parts, part, "\n")
    for (i = 1; i <= n; i++) if (part[i] != "" && !((0 SUBSEP part[i]) in given)) out = out (out == "" ? "nothing is said of " : ", ") part[i]
    return out
}

END {
    if (failed) exit failed
    if (!("exceptions" in marks) || !("requires" in marks)) fails("docs/PROMISES.md has no tables behind <!-- exceptions --> and <!-- requires -->")
    for (i = 1; i <= functions; i++) {
        f = function_of[i]
        if (!is_public[f]) continue
        open = f in has_ensures ? open_in(f) : "no contract"
        if (open != "" && !is_named("exceptions", f)) { print place_at[f] ": " f ": " open; found++ }
        if (f in has_requires && !is_named("requires", f)) { print place_at[f] ": " f ": its requires is in no class"; found++ }
    }
    split("exceptions requires", table_of, " ")
    for (t = 1; t <= 2; t++) for (i = 1; i <= names[table_of[t]]; i++) if (!((table_of[t] SUBSEP i) in entry_used)) {
        print "docs/PROMISES.md:" page_line[table_of[t], i] ": `" name_of[table_of[t], i] "` is not needed in the table of " table_of[t]
        found++
    }
    exit found > 0
}
