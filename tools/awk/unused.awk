# For tools/unused, behind reading.awk. The variable mode comes from there: `list` prints what is unused, `edit` prints the use lines as they should be,
# each as FILE, line and text with tabs between them.

FNR == 1 {
    file = FILENAME
    if (file ~ /\.md$/) kind = "page"
    else if (file ~ /\.edit$/) { kind = "edit"; crate = file; sub(/^.*crates\//, "", crate); sub(/\/.*$/, "", crate) }
    else { kind = file ~ /\.rt$/ ? "rattle" : "antt"; module = module_of_file(file); module_file[module] = file; modules[++module_count] = module }
    clause_here = 0
}

kind == "page" { read_page($0); next }

# an edit of must-fail/ or wrong/: what it puts in is a use, and a use line that it looks for stays as it is
kind == "edit" {
    if ($0 ~ /^file: /) module = module_of_file("crates/" crate "/" substr($0, 7))
    else if ($0 ~ /^old: .*use /) { looked_for++; looked_module[looked_for] = module; looked_text[looked_for] = substr($0, 6) }
    else if ($0 ~ /^new: / && $0 !~ /^new: .*use /) {
        line = substr($0, 6)
        take_words(plain(line))
        gsub(/[^A-Za-z0-9_]/, " ", line)
        n = split(line, word, " ")
        for (i = 1; i <= n; i++) in_code[module, word[i]] = 1
    }
    next
}

kind == "antt" {
    read_antt(module, $0)
    if ($0 ~ /^(pub |unfoldable )*use /) take_use($0)
    else if ($0 !~ /^(pub )*mod /) take_words(plain($0))
    next
}

{
    # in a Rattle file a `ghost use` is for clauses, any other `use` for code too
    was = function_now
    read_rattle(module, $0)
    if (use_goes_on) { use_line[uses] = use_line[uses] " " $0; use_lines[uses]++; use_goes_on = $0 !~ /;/; next }
    if ($0 ~ /^(pub )*(ghost )?use /) { take_use($0); use_goes_on = $0 !~ /;/; next }
    line = $0
    sub(/(^| )\/\/.*$/, "", line)
    if ($0 ~ /^ *(requires|ensures) /) clause_here = 1
    if ($0 ~ /^ *\{ *$/) clause_here = 0
    if (clause_here) take_words(line)
    # what an impl says beside its functions, as `ghost from_gives = { .. };`
    if ($0 ~ /^ *ghost [a-z_]+ = /) ghost_here = 1
    if (ghost_here) take_words(line)
    if ($0 ~ /; *$/) ghost_here = 0
    # a trait is used where its method is called
    if (line ~ /\.(with_)?context\(/) in_code[module, "Context"] = 1
    gsub(/[^A-Za-z0-9_]/, " ", line)
    n = split(line, word, " ")
    for (i = 1; i <= n; i++) in_code[module, word[i]] = 1
}

# ---- imported names

# A use line, kept as it stands.
function take_use(line,    path) {
    uses++
    use_module[uses] = module
    use_line[uses] = line
    use_lines[uses] = 1
    use_place[uses] = FNR
    path = line
    sub(/^(pub |unfoldable |ghost )*use /, "", path)
    sub(/[. ;].*$/, "", path)
    seen_word[module, path] = 1
}

# The words that a line uses: whole, before the first dot, and the parts of an operator. No field and no name of a field is one.
function take_words(text,    word, n, i, part, k, m) {
    gsub(/[{;] *[^ (){};,=]+ = /, "{ ", text)
    if (text ~ /^ +[^ ]+ = .*;$/) sub(/^ +[^ ]+ = /, "", text)
    n = words(text, word)
    for (i = 1; i <= n; i++) {
        if (word[i] ~ /^\./ || word[i] ~ /\.$/) continue
        seen_word[module, word[i]] = 1
        if (index(word[i], ".")) { split(word[i], part, "."); seen_word[module, part[1]] = 1; word[i] = part[1] }
        if (word[i] ~ /\342\227\214/) {
            m = split(word[i], part, "\342\227\214")
            for (k = 1; k <= m; k++) if (part[k] != "") seen_word[module, part[k]] = 1
        }
    }
}

# Whether a module uses a name.
function is_used(module, name,    part, n, i) {
    if ((module SUBSEP name) in seen_word) return 1
    if (name !~ /\342\227\214/) return 0
    n = split(name, part, "\342\227\214")
    for (i = 1; i <= n; i++) if (part[i] != "" && (module SUBSEP part[i]) in seen_word) return 1
    return 0
}

# One use line: prints what is unused in it.
function judge(u,    line, module, head, list, tail, item, n, i, part, name, kept, gone, ghost) {
    line = use_line[u]
    module = use_module[u]
    if (line ~ /^(unfoldable )?pub /) return
    ghost = line ~ /^ghost /
    if (module ~ /\/src\// && !ghost) {
        # what is left of it is laid out by rt fmt
        n = used_names(line, item)
        kept = gone = ""
        for (i = 1; i <= n; i++) {
            name = item[i]
            sub(/^.*(::|\t)/, "", name)
            sub(/\t/, " as ", item[i])
            if ((module SUBSEP name) in in_code) kept = joined(kept, ", ", item[i])
            else gone = joined(gone, ", ", name)
        }
        if (gone != "") says(u, gone, kept == "" ? "" : "use " (index(kept, ",") ? "{" kept "}" : kept) ";")
        return
    }
    if (match(line, /\.\{/)) {
        head = substr(line, 1, RSTART + 1)
        list = substr(line, RSTART + 2)
        match(list, /\}/)
        tail = substr(list, RSTART)
        list = substr(list, 1, RSTART - 1)
        n = split(list, item, ",")
        kept = gone = ""
        for (i = 1; i <= n; i++) {
            if (split(item[i], part, " ") == 0) continue
            name = part[2] == "as" ? part[3] : part[1]
            gsub(/^ +| +$/, "", item[i])
            if (is_used(module, name)) kept = joined(kept, ", ", item[i])
            else gone = joined(gone, ", ", item[i])
        }
        if (gone != "") says(u, gone, kept == "" ? "" : head kept tail)
        return
    }
    if (!aliases) return
    name = line
    sub(/;.*$/, "", name)
    sub(/^.*[. ]/, "", name)
    if (!((module SUBSEP name) in seen_word)) says(u, name, "")
}

function says(u, gone, text,    i) {
    for (i = 1; i <= looked_for; i++)
        if (looked_module[i] == use_module[u] && index(use_line[u], looked_text[i]) && !index(text, looked_text[i])) return
    found++
    if (mode == "edit") for (i = 0; i < use_lines[u]; i++) print module_file[use_module[u]] "\t" use_place[u] + i "\t" (i ? "" : text)
    else print module_file[use_module[u]] ":" use_place[u] ": imported and not used: " gone
}

function joined(a, between, b) { return a == "" ? b : a between b }

# ---- definitions and laws

# The names that a page cites: what stands between two backquotes, by words; `File.name`, `name`, and * for any part. `crate: File` alone is all of it.
function read_page(line,    piece, n, i, word, m, k) {
    n = split(line, piece, "`")
    for (i = 2; i <= n; i += 2) {
        if (piece[i] ~ /^[a-z_]+: [A-Z][A-Za-z0-9]*$/) { sub(/: /, "/proofs/", piece[i]); whole[piece[i]] = 1; continue }
        m = split(piece[i], word, /[ ,()]+/)
        for (k = 1; k <= m; k++) {
            if (word[k] ~ /\*/) star[++stars] = word[k]
            else if (word[k] != "") on_page[word[k]] = 1
        }
    }
}

function is_on_page(module, name,    file, i, pattern) {
    file = module
    sub(/^.*\//, "", file)
    if (name in on_page || (file "." name) in on_page || module in whole) return 1
    for (i = 1; i <= stars; i++) {
        pattern = star[i]
        gsub(/\./, "\\.", pattern)
        gsub(/\*/, ".*", pattern)
        if ((file "." name) ~ ("^" pattern "$")) return 1
    }
    return 0
}

function reach(id) {
    if (id == "" || id ~ /^kit / || !(id in defined) || id in reached) return
    reached[id] = 1
    queue[++queued] = id
}

function reach_words(text, module,    word, n, i, hidden) {
    n = split(text, word, " ")
    for (i = 1; i <= n; i++) {
        hidden = word[i] ~ /^\?/
        if (hidden) word[i] = substr(word[i], 2)
        reach(resolve(module, word[i], hidden))
    }
}

END {
    if (failed) exit failed
    for (u = 1; u <= uses; u++) judge(u)
    if (mode == "edit") exit 0

    # what is cited starts from the contracts, from the theorem of each function's proof, and from the pages
    for (i = 1; i <= functions; i++) {
        f = function_of[i]
        n = words(text_of[f, "requires"] " " text_of[f, "ensures"], word)
        for (k = 1; k <= n; k++) if (citable(word[k])) reach(resolve(src_at[f], word[k], 0))
    }
    for (i = 1; i <= definitions; i++) {
        id = order[i]
        if (kind_at[id] == "type" || kind_at[id] == "parameters" || module_at[id] ~ /\.(Proof|Invariants|Answers)$/ && public_mark[id] || is_on_page(module_at[id], name_at[id])) reach(id)
    }
    while (followed < queued) {
        id = queue[++followed]
        if (kind_at[id] != "type") reach_words(cited_words[id], module_at[id])
    }
    for (i = 1; i <= definitions; i++) {
        id = order[i]
        if (id in reached) continue
        found++
        print file_at[id] ":" line_at[id] ": cited by nothing: " name_at[id]
    }
    exit found > 0
}
