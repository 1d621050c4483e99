# What the pages name, held to the sources: see tools/pages. The sources come first, then docs/CHANGES.md, then the pages.
BEGIN {
    while ((getline name <crates) > 0) crate[name] = 1
    while ((getline name <edits) > 0) {
        split(name, part, "/"); tries[part[2]]++; name = part[1] "/" part[3]
        if (name in edit) { print "crates/" part[1] ": two edits are called " part[3]; bad = 1 }
        edit[name] = 1; word[part[3]] = 1
    }
    while ((getline name <paths) > 0) {
        path[name] = 1
        sub(/.*\//, "", name); word[name] = 1; sub(/\.[a-z]+$/, "", name); word[name] = 1
    }
    while ((getline line <counts) > 0) { split(line, part, " "); many[part[2]] = part[1] }
    n = split(foreign, part, " "); for (i = 1; i <= n; i++) word[part[i]] = 1
}

# How many arguments stand in a text from its first bracket on; -1 where the bracket is not closed in it.
function arguments(line,    i, c, depth, n, some) {
    depth = 0; n = 0; some = 0
    for (i = index(line, "("); i <= length(line); i++) {
        c = substr(line, i, 1)
        if (c ~ /[(\[{]/) { depth++; if (depth > 1) some = 1 }
        else if (c ~ /[)\]}]/) { if (--depth == 0) return n + some }
        else if (c == "," && depth == 1) { n += some; some = 0 }
        else if (c != " ") some = 1
    }
    return -1
}

# ---- the sources

# Every word of a line counts as there; one with hyphens counts in its parts too.
function words(line,    n, i, k, some, parts) {
    gsub(/[^A-Za-z0-9_-]+/, " ", line)
    n = split(line, some, " ")
    for (i = 1; i <= n; i++) {
        word[some[i]] = 1
        if (some[i] ~ /-/) { k = split(some[i], parts, "-"); while (k) word[parts[k--]] = 1 }
    }
}
FILENAME !~ /\.md$/ {
    words($0)
    if (FILENAME == "include/kevdarosh.h") { line = $0; while (match(line, /(kev|KEV)_[A-Za-z0-9_]+/)) { header[substr(line, RSTART, RLENGTH)] = 1; line = substr(line, RSTART + RLENGTH) } }
    split(FILENAME, part, "/")
    if (FILENAME ~ /\.(rt|rs)$/) {
        line = $0
        while (match(line, /(fn|struct|enum|const|mod|type|trait|static)[ ]+[A-Za-z_0-9]+/)) {
            name = substr(line, RSTART, RLENGTH); sub(/^[a-z]+[ ]+/, "", name)
            declared[name] = 1
            if (part[1] == "crates") item[part[2] "::" name] = 1
            line = substr(line, RSTART + RLENGTH)
        }
        # the arguments of a function, which may go over several lines
        if (part[1] == "crates" && $1 == "pub" && $2 == "fn") { opened = $0; name = $3; sub(/[^A-Za-z0-9_].*/, "", name); calling = part[2] "::" name }
        else if (calling != "") opened = opened " " $0
        if (calling != "" && (n = arguments(opened)) >= 0) { arity[calling] = n; calling = "" }
        if (part[1] == "crates" && match($0, /^    [A-Z][A-Za-z0-9]*[,({ ]?/)) { name = $1; sub(/[^A-Za-z0-9].*/, "", name); item[part[2] "::" name] = 1 }
        file = FILENAME; sub(/.*\//, "", file); sub(/\.r[st]$/, "", file); declared[file] = 1
    }
    if (FILENAME ~ /\.antt$/ && part[1] == "crates") {
        file = part[4]; sub(/\.antt$/, "", file)
        text[part[2] "/" file] = text[part[2] "/" file] " " $0 " "
        if (!((part[2], file) in filed)) { filed[part[2], file] = 1; homes[file] = homes[file] " " part[2]; files[part[2]] = files[part[2]] " " file }
    }
    next
}

# ---- the pages

function say(what, why) { print FILENAME ":" FNR ": " what ": " why; bad = 1 }
function has(where, name,    at, before, behind, rest) {
    rest = where
    while ((at = index(rest, name)) > 0) {
        before = substr(rest, at - 1, 1); behind = substr(rest, at + length(name), 1)
        if ((at == 1 || before !~ /[A-Za-z0-9_-]/) && behind !~ /[A-Za-z0-9_-]/) return 1
        rest = substr(rest, at + length(name))
    }
    return 0
}
# Whether a crate has a file with the name; * in it stands for any characters.
function within(of, file, name,    glob) {
    if (!((of "/" file) in text)) return 0
    if (name ~ /\*/) { glob = name; gsub(/\*/, "[A-Za-z0-9_-]*", glob); return text[of "/" file] ~ (" " glob " ") }
    return has(text[of "/" file], name)
}
function anywhere(file, name,    n, some) {
    n = split(homes[file], some, " ")
    while (n) if (within(some[n--], file, name)) return 1
    return 0
}
function inCrate(of, name,    n, some) {
    n = split(files[of], some, " ")
    while (n) if (has(text[of "/" some[n--]], name)) return 1
    return 0
}
function last(name) { sub(/.*[.:]/, "", name); return name }
function isPath(name) {
    sub(/\/$/, "", name)
    return name in path || ("rust/kevdarosh/" name) in path || ("oracle/" name) in path || name ~ /(^|\/)[A-Z][A-Z]+(\/|\.|$)/
}
# A script or a sample, by its name or by a pattern of names.
function among(folder, name, ending,    p) {
    if (name !~ /\*/) return (folder name ending) in path
    gsub(/\*/, ".*", name)
    for (p in path) if (p ~ ("^" folder name ending "$")) return 1
    return 0
}
function isScript(name) { return among("oracle/fixed/", name, ".script") || among("oracle/findings/", name, ".script") }
function isSample(name) { return among("crates/listing_samples/data/", name, "") || among("crates/makedelta_samples/data/", name, "") || among("crates/table_samples/data/", name, "") }

# A name in backquotes. `sep` is the text since the one before, `kind` and `of` say what that was, for lists.
function look(name, sep,    side, file, behind, listed) {
    listed = sep ~ /^ *(\([^()]*\))? *(,|;|and|or|, and|, or|to)? *$/
    if (!listed || sep ~ /;/) { kind = ""; of = ""; if (sep !~ /^ in $/) waiting = "" }
    if (sep ~ /[Ss]cripts? $/) kind = "script"
    else if (sep ~ /[Ss]amples? $/) kind = "sample"
    if (kind == "script" && name ~ /^[a-z0-9*-]+$/) { if (!isScript(name)) say(name, "no such script"); return }
    if (kind == "sample" && name ~ /^[a-z0-9*-]+$/) { if (!isSample(name)) say(name, "no such sample"); return }
    # calls are named by what stands before their arguments
    if (name ~ /^[A-Za-z0-9_:]+\(.*\)\??$/) sub(/\(.*/, "", name)
    if (name ~ /^[a-z0-9_]+::([A-Za-z0-9_]+::)*[A-Za-z0-9_*]+$/) {
        of = name; sub(/:.*/, "", of); kind = "item"
        if (!(of in crate)) { if (!(of in declared || ("oracle/" of) in path) || !(last(name) in word)) say(name, "no such item"); kind = "" }
        else if (name !~ /\*/ && !((of "::" last(name)) in item)) say(name, "no such item")
    } else if (name ~ /^[A-Z][A-Za-z0-9]*::[A-Za-z0-9_]+$/) {
        side = name; sub(/:.*/, "", side); kind = ""
        if (side in declared && !(last(name) in word)) say(name, "no such item")
        else if (!(side in declared) && !(side in word) && side !~ /^(Instant|Vec|Option|File|Duration)$/) say(name, "no such type")
    } else if (name ~ /^[a-z0-9_]+(\/(specs|proofs))?: [A-Z][A-Za-z0-9]*(\.[^ ]+)?$/) {
        of = name; sub(/[:\/].*/, "", of); file = name; sub(/^[^:]*: /, "", file); kind = "law"
        behind = file ~ /\./ ? last(file) : ""; sub(/\..*/, "", file)
        if (!(of in crate)) say(name, "no such crate")
        else if (!((of, file) in filed)) say(name, "no such file")
        else if (behind != "" && !within(of, file, behind)) say(name, "no such name")
    } else if (name ~ /^[A-Z][A-Za-z0-9]*\.[A-Za-z0-9_.*-]+$/ && name !~ /\.(md|antt)$/ && name !~ /^Prim\./) {
        file = name; sub(/\..*/, "", file); behind = last(name)
        if (kind == "law" && within(of, file, behind)) return
        if (kind != "law" || !(of in crate)) { kind = "free"; of = file }
        # a file and what it has, or a record and its field, or a library of the kit
        if (file in homes ? !anywhere(file, behind) : !(file in word && behind in word)) say(name, "no such name")
    } else if (name ~ /^(kev|KEV)_[A-Za-z0-9_]+$/) {
        if (name !~ /_$/ && !(name in header)) say(name, "the header has none")
        kind = "c"
    } else if (name ~ /^[a-z0-9_]+\/[A-Za-z0-9_]+$/ && substr(name, 1, index(name, "/") - 1) in crate) {
        of = name; sub(/\/.*/, "", of); file = name; sub(/.*\//, "", file); kind = name in edit ? "edit" : ""
        if (!(name in edit) && !(name in text) && !(("crates/" name) in path) && file !~ /^[A-Z]+$/) say(name, "no such edit or file")
    } else if (name ~ /^[a-z0-9_]+\/(specs|proofs|src)\/[A-Za-z0-9_.]+$/) {
        of = name; sub(/\/.*/, "", of); file = name; sub(/.*\//, "", file); behind = file; sub(/\..*/, "", file); kind = "law"
        if (of in crate && !((of "/" file) in text) && !(("crates/" name) in path) && !within(of, file, last(behind))) say(name, "no such file")
    } else if (name ~ /^(crates|docs|tools|oracle|rust|tests|include|\.ci)\/[A-Za-z0-9_.\/-]+( |$)/) {
        side = name; sub(/ .*/, "", side)
        if (!isPath(side)) say(side, "no such path")
        else if (sep ~ / in $/ && side ~ /\./) inFile(side)
        kind = "path"
    } else if (name ~ /^[A-Za-z_][A-Za-z0-9_-]*$/ && name ~ /[a-z]/) {
        if (kind == "edit") { if (!((of "/" name) in edit)) say(name, "no edit of " of) }
        else if (kind == "item" && name ~ /^[a-z0-9_]+$/) { if (!((of "::" name) in item)) say(name, "no item of " of) }
        else if (kind == "law") { if (!inCrate(of, name) && !((of "::" name) in item) && !isScript(name)) say(name, "no name of " of) }
        else if (!(name in word) && !(name ~ /_$/ && beginsCrate(name)) && name !~ /-[A-Z][A-Z]/) say(name, "no such name")
        waiting = waiting " " name
    } else kind = ""
}
function beginsCrate(name,    c) { for (c in crate) if (index(c, name) == 1) return 1; return 0 }
# The names before `in PATH` must stand in that file.
function inFile(name,    n, some, line, found, all) {
    n = split(waiting, some, " ")
    while ((getline line <name) > 0) all = all " " line " "
    close(name)
    while (n) { if (!has(all, some[n])) say(some[n], "not in " name); n-- }
    waiting = ""
}
function number(said) { gsub(/,/, "", said); return said + 0 }
# A count that the line gives behind a pattern's beginning: `lead` is what stands before the number, `tail` what stands behind it.
function counted(line, lead, tail, what,    said) {
    while (match(line, lead "[0-9][0-9,]*" tail)) {
        said = substr(line, RSTART, RLENGTH)
        line = substr(line, RSTART + RLENGTH)
        match(said, /[0-9][0-9,]*/); said = substr(said, RSTART, RLENGTH)
        if (number(said) != many[what]) say(said tail, "the tree has " many[what])
    }
}
function heading(line,    slug) {
    sub(/^#+ /, "", line); title[FILENAME, line] = 1
    slug = tolower(line); gsub(/`/, "", slug); gsub(/[^a-z0-9 _-]/, "", slug); gsub(/ /, "-", slug)
    return slug
}
FNR == 1 { sep = ""; kind = ""; fenced = 0; cells = 0; waiting = "" }
/^ *```/ { fenced = !fenced; next }
# code: a tool that it starts is there, and a call has as many arguments as its function
(fenced || /^    [^ ]/) && FILENAME != "docs/CHANGES.md" {
    if (match($0, /^ *(\$ )?(tools|oracle|\.ci)\/[A-Za-z0-9_.\/-]+/)) { name = $0; sub(/^ *(\$ )?/, "", name); sub(/ .*/, "", name); if (!isPath(name)) say(name, "no such path") }
    line = $0
    while (match(line, /[a-z0-9_]+::[a-z0-9_]+\(/)) {
        name = substr(line, RSTART, RLENGTH - 1); line = substr(line, RSTART); n = arguments(line)
        if (name in arity && n >= 0 && n != arity[name]) say(name, n " arguments, and the function has " arity[name])
        line = substr(line, length(name) + 1)
    }
}
fenced { next }
/^#/ { anchor[FILENAME, heading($0)] = 1 }
# a paragraph that begins in bold is a section too
/^\*\*/ { name = $0; sub(/^\*\*/, "", name); sub(/\*\*.*/, "", name); sub(/\.$/, "", name); title[FILENAME, name] = 1 }
# a decision is a numbered line
FILENAME == "docs/DECISIONS.md" && /^[0-9]+\. / { name = $1 + 0; if (name in decision) say(name, "this decision stands there twice"); decision[name] = 1 }
{
    # links, kept until every heading is known
    line = $0
    while (match(line, /\]\([^)]*\)/)) {
        name = substr(line, RSTART + 2, RLENGTH - 3); line = substr(line, RSTART + RLENGTH)
        if (name !~ /^https?:/) { links++; linked[links] = name; from[links] = FILENAME; at[links] = FNR }
    }
    line = $0
    while (match(line, /[A-Z][A-Z0-9-]+(\.md\)?|\]\([A-Za-z\/.-]*\))?,? "[A-Z][^"]*"/)) {
        name = substr(line, RSTART, RLENGTH); line = substr(line, RSTART + RLENGTH)
        cited++; section[cited] = name; from["s", cited] = FILENAME; at["s", cited] = FNR
    }
}
FILENAME == "docs/CHANGES.md" {
    if (length($0) >= 1000) say("a line of " length($0) " characters", "break it")
    if ($0 ~ /(^|[^A-Za-z])(TIMES|TODO|TBD|FIXME|XXX|NNN?)([^A-Za-z]|$)/) say($0, "a word stands for what was to come")
    next
}
{
    # tables: as many cells as the head has
    if ($0 ~ /^\|/) {
        line = $0; gsub(/`[^`]*`/, "", line); gsub(/\\\|/, "", line); n = gsub(/\|/, "", line)
        if (cells && n != cells) say("a row of " n - 1 " cells", "the table has " cells - 1)
        cells = cells ? cells : n
    } else cells = 0
    if ($0 ~ /^ *$/ || $0 ~ /^(#|\||    |- |[0-9]+\. )/) { sep = ""; kind = ""; waiting = "" }
    n = split($0, piece, "`")
    if (n && n % 2 == 0 && $0 !~ /^    /) say(substr($0, 1, 60) " ..", "a backquote is not closed")
    if ($0 !~ /^    [^ ]/ || FILENAME == "docs/DECISIONS.md") for (i = 1; i <= n; i++) {
        if (i % 2) { sep = sep (sep == "" ? "" : " ") piece[i]; }
        else { look(piece[i], sep); sep = "" }
    }
    # decisions and readings
    line = /^    [^ ]/ && FILENAME != "docs/DECISIONS.md" ? "" : $0
    while (match(line, /([Dd]ecisions?|DECISIONS|[Rr]eadings?) [0-9]+((, | and | to )[0-9]+)*/)) {
        name = substr(line, RSTART, RLENGTH); line = substr(line, RSTART + RLENGTH)
        gsub(/[^0-9]+/, " ", name); count = split(name, some, " ")
        for (k = 1; k <= count; k++) { asked++; wanted[asked] = some[k]; from["d", asked] = FILENAME; at["d", asked] = FNR }
    }
    # a column of decisions
    if ($0 !~ /^\|/) deciding = 0
    else if (deciding) {
        split($0, cell, "|"); gsub(/[^0-9]+/, " ", cell[3]); count = split(cell[3], some, " ")
        for (k = 1; k <= count; k++) { asked++; wanted[asked] = some[k]; from["d", asked] = FILENAME; at["d", asked] = FNR }
    } else if ($0 ~ /^\| [^|]* \| decision \|/) deciding = 1
    # counts: of what is in the gate now, not of what a run once had
    if (FILENAME !~ /(DECISIONS|SPEED|NET|FINDINGS)\.md$/) {
        if ($0 !~ /table_samples/) counted($0, "", " samples", "samples")
        else counted($0, "", " samples", "tables")
        counted($0, "", " edited listings", "listings")
        counted($0, "", " stored calls", "calls")
        counted($0, "the ", " stored scripts, in the gate", "scripts")
        counted($0, "", " wrong ports (of today )?(that )?no script", "unseen")
        counted($0, "", " edits of plain", "faults")
        if (match($0, /stored scripts, in the gate \| [0-9,]+ /)) { name = substr($0, RSTART, RLENGTH); sub(/.*\| /, "", name); if (number(name) != many["calls"]) say(name "calls", "the tree has " many["calls"]) }
    }
    if (FILENAME == "docs/ENGINEERING.md" && $0 ~ /^\| [0-9]+ crates \|/) {
        split($0, cell, "|")
        if (cell[2] + 0 != many["crates"]) say(cell[2], "the tree has " many["crates"])
        if (cell[4] + 0 != tries["must-fail"]) say(cell[4] "edits of must-fail/", "the tree has " tries["must-fail"])
        if (cell[5] + 0 != tries["wrong"]) say(cell[5] "edits of wrong/", "the tree has " tries["wrong"])
    }
}
function complain(f, n, what, why) { print f ":" n ": " what ": " why; bad = 1 }
END {
    for (i = 1; i <= asked; i++) if (!(wanted[i] in decision)) complain(from["d", i], at["d", i], "decision " wanted[i], "no such decision")
    for (i = 1; i <= links; i++) {
        target = linked[i]; behind = ""; if (target ~ /#/) { behind = target; sub(/^[^#]*#/, "", behind); sub(/#.*/, "", target) }
        if (target == "") file = from[i]
        else {
            file = from[i]; if (!sub(/\/[^\/]*$/, "/", file)) file = ""
            file = file target
            while (sub(/[^\/.]+\/\.\.\//, "", file)) {}
        }
        if (!(file in path)) complain(from[i], at[i], linked[i], "the link leads nowhere")
        else if (behind != "" && !((file, behind) in anchor)) complain(from[i], at[i], linked[i], "no such heading")
    }
    for (i = 1; i <= cited; i++) {
        name = section[i]; file = name; sub(/[.\],].*/, "", file); sub(/ .*/, "", file)
        behind = name; sub(/^[^"]*"/, "", behind); sub(/"$/, "", behind); sub(/[.,]$/, "", behind)
        if (file == "README") f = (name ~ /oracle/ ? "oracle/README.md" : "README.md"); else f = "docs/" file ".md"
        if (f in path && !((f, behind) in title)) {
            if (file == "README" && (("oracle/README.md", behind) in title)) continue
            complain(from["s", i], at["s", i], name, "no such section")
        }
    }
    exit bad
}
