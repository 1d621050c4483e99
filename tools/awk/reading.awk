# What tools/believed, tools/unused and tools/forms read: the definitions of antt files (specs/ and proofs/), the types and the functions of Rattle
# files (src/), and which names each of them cites. It reads bytes, so awk is run with LC_ALL=C. Any awk of POSIX will do.
#
# A module is named crate/specs/File, crate/proofs/File or crate/src/file; a definition module:name; a type of src/ crate/src:Name; a function
# crate::name or crate::Type::name.
#
#   defined[id], lines_of[id]                     a definition, its lines with the comment above it
#   cited_words[id], stated_words[id]             the words of its text, the words of its signature
#   text_at[id]                                   its lines without comments
#   under[id], binders_of[id]                     the parameters of the modules that it stands in, as ids; the names that such parameters bind
#   owner[module, name]                           the definition that a module gives a name to; a constructor's is its data type
# The variable crates has the names of the crates of this repository: the kit's libraries are named in the same way.
#   function_of[n], is_public, has_requires ..    the functions, in order

# ---- words

# The line without its comment; a quoted text becomes a word of its own.
function plain(line,    out, at) {
    out = ""
    while (match(line, /"|(^| )--/)) {
        at = RSTART
        if (substr(line, at, 1) != "\"") return out substr(line, 1, at - 1)
        out = out substr(line, 1, at - 1)
        line = substr(line, at)
        if (!match(line, /^"([^"\\]|\\.)*"/)) return out
        out = out " "
        line = substr(line, RLENGTH + 1)
    }
    return out line
}

# The words of a text into the array `into`; brackets and commas go, the marks of an escaped name too. Answers how many.
function words(text, into) {
    gsub(/\302\253/, "", text)
    gsub(/\302\273/, "", text)
    gsub(/[(){};,@]/, " ", text)
    return split(text, into, " ")
}

# What stands before the first dot of a word: `r.f` is a field of r, or the definition f of the module r.
function head_of(word,    at) {
    at = index(word, ".")
    return at ? substr(word, 1, at - 1) : word
}

# Whether a word can stand for a definition: no field of a record (.max), no bound name of a lambda (x.), no number, no mark.
function citable(word) {
    return word !~ /^\./ && word !~ /\.$/ && word !~ /^[0-9]/ && word != "=" && word != ":" && word != "\316\273" && word != "_"
}

# ---- use lines

# The module that a path of a use line names: of this repository as above, of the kit as `kit path`. A type declared in src/ is `type crate/src:Name`, its
# variants `variants crate/src:Name`.
function module_of(path,    part, n, i, crate, kind, rest, variants) {
    n = split(path, part, ".")
    crate = part[2]
    if (part[1] != "Rattle" || index(" " crates " ", " " crate " ") == 0) return "kit " path
    kind = part[3]
    if (kind != "specs" && kind != "proofs") return "unread " path
    if (part[4] == "declared") {
        variants = part[n] == "TheVariants"
        if (variants) n--
        return (variants ? "variants " : "type ") crate "/src:" part[n]
    }
    rest = part[4]
    for (i = 5; i <= n; i++) rest = rest "." part[i]
    return crate "/" kind "/" rest
}

# The names of a use line: `use PATH.{a, b as c}`, `use PATH as d`, `use PATH`. bound[module, name] is `target name there`, alias[module, name] the target.
function read_use(module, line,    path, list, item, n, i, target, part, from) {
    sub(/^(pub |unfoldable |ghost )*use /, "", line)
    sub(/;.*$/, "", line)
    line = plain(line)
    if (match(line, /\.\{/)) {
        path = substr(line, 1, RSTART - 1)
        list = substr(line, RSTART + 2)
        sub(/\}.*$/, "", list)
        target = module_of(path)
        n = split(list, item, ",")
        for (i = 1; i <= n; i++) {
            if (split(item[i], part, " ") == 0) continue
            from = part[1]
            bind(module, part[2] == "as" ? part[3] : from, target, from)
        }
        return
    }
    n = split(line, part, " ")
    target = module_of(part[1])
    if (part[2] == "as") alias[module, part[3]] = target
    else {
        n = split(part[1], item, ".")
        alias[module, item[n]] = target
    }
}

function bind(module, name, target, there,    part, n, i) {
    bound[module, name] = target
    bound_name[module, name] = there
    if (name ~ /\342\227\214/) mixfix(module, name)
}

# The parts of an operator's name stand for it: its sign for the name in which a mark stands for each argument.
function mixfix(module, name,    part, n, i) {
    n = split(name, part, "\342\227\214")
    for (i = 1; i <= n; i++) if (part[i] != "") operator[module, part[i]] = name
}

# ---- antt

# One line of an antt file. `module` is its module.
function read_antt(module, line) {
    if (module != reading) { reading = module; block = 0; now = ""; pending = 0; opened_in = 0; split("", opened) }
    read_line(module, line)
    if (now != "" && line !~ /^ *(--|$)/ && line !~ /^ *infix[lr]? /) text_at[now] = text_at[now] plain(line) "\n"
}

function read_line(module, line,    indent, text, mark, word, n, i, name, head) {
    if (line ~ /^ *$/) { pending = 0; return }
    match(line, /^ */)
    indent = RLENGTH
    if (line ~ /^ *--/) {
        if (indent > block && now != "") lines_of[now]++
        else pending++
        return
    }
    if (line ~ /^(pub |unfoldable )*use /) { read_use(module, line); pending = 0; return }
    if (line ~ /^(pub )*mod /) { sub(/^(pub )*mod /, "", line); submodule[module, ++submodules[module]] = line; pending = 0; return }
    if (line ~ /^ *infix[lr]? /) { pending++; return }
    if (indent < block) block = indent
    if (indent == block && line ~ /^ *module /) {
        start(module, "(parameters-" ++opened_in ")", "parameters")
        opened[indent] = now
        add_signature(line)
        block = indent + 2
        return
    }
    if (line ~ /^(unfoldable |abbrev )?mutual/) fails(module ": this reader does not know `mutual`")
    text = plain(line)
    if (indent == block) {
        head = text
        sub(/^ */, "", head)
        mark = ""
        while (match(head, /^(unfoldable|abbrev|pub|axiom) /)) { mark = mark substr(head, 1, RLENGTH); head = substr(head, RLENGTH + 1) }
        if (match(head, /^(record|data|ruleset) /)) {
            kind_now = substr(head, 1, RLENGTH - 1)
            head = substr(head, RLENGTH + 1)
            name = head
            sub(/[ (].*$/, "", name)
            start(module, name, kind_now)
            public_mark[now] = mark ~ /pub/
            add_signature(substr(head, length(name) + 1))
            return
        }
        name = head
        sub(/ .*$/, "", name)
        if (substr(head, length(name) + 1) ~ /^( \{[^}:]*\})? :( |$)/) {
            start(module, name, "definition")
            public_mark[now] = mark ~ /pub/
            add_signature(substr(head, length(name) + 1))
            return
        }
        if (now == "") fails(module ": no definition begins at: " line)
        lines_of[now]++
        if (head ~ /^unfolding /) { split("", local); add(substr(head, 11)); return }
        # a clause: what stands before the sign = are patterns, and their variables hide definitions
        split("", local)
        in_signature = 0
        if (match(head, /(^| )=( |$)/)) {
            text = substr(head, 1, RSTART)
            head = substr(head, RSTART + RLENGTH)
            n = words(text, word)
            for (i = 1; i <= n; i++) if (word[i] != name && citable(word[i])) local[word[i]] = 1
            add(text)
        }
        add(head)
        return
    }
    if (now == "") fails(module ": no definition begins at: " line)
    lines_of[now]++
    if ((kind_now == "record" || kind_now == "data") && indent == block + 2) {
        # a field, or constructors
        split("", local)
        sub(/^ */, "", text)
        sub(/^pub /, "", text)
        if (match(text, /^[^:]* : /)) {
            head = substr(text, 1, RLENGTH - 3)
            text = substr(text, RLENGTH)
            if (kind_now == "data") {
                n = words(head, word)
                for (i = 1; i <= n; i++) {
                    owner[module, word[i]] = now
                    constructor[module, word[i]] = 1
                    if (word[i] ~ /\342\227\214/) mixfix(module, word[i])
                }
            }
        }
    }
    if (in_signature) add_signature(text)
    else if (kind_now == "ruleset" || text !~ /^ +[^ ]+ = .*;$/) add(text)
    else { sub(/^ +[^ ]+ = /, "", text); add(text) }
}

# A definition begins.
function start(module, name, kind,    level) {
    now = module ":" name
    kind_now = kind
    if (!(now in defined)) order[++definitions] = now
    defined[now] = 1
    module_at[now] = module
    name_at[now] = name
    kind_at[now] = kind
    owner[module, name] = now
    if (name ~ /\342\227\214/) mixfix(module, name)
    under[now] = ""
    for (level = 0; level < block; level += 2) if (level in opened) under[now] = under[now] " " opened[level]
    lines_of[now] += 1 + pending
    if (!(now in line_at)) { line_at[now] = FNR; file_at[now] = FILENAME }
    pending = 0
    in_signature = 1
    split("", local)
}

# The words of a signature or of a field; the names that its brackets bind are no citations.
function add_signature(text,    rest, binder, word, n, i) {
    rest = text
    while (match(rest, /[({][^(){}:=]* : /)) {
        binder = substr(rest, RSTART + 1, RLENGTH - 4)
        n = words(binder, word)
        for (i = 1; i <= n; i++) {
            local[word[i]] = 1
            if (kind_now == "parameters") binders_of[now] = binders_of[now] " " word[i]
        }
        rest = substr(rest, RSTART + RLENGTH - 2)
    }
    add(text)
}

# The words of a piece of the definition at hand. One that a pattern may hide is marked `?`: it counts where it is a constructor. The name of a field
# or of an argument, before the sign = in braces, is none.
function add(text,    word, n, i, mark) {
    gsub(/[{;] *[^ (){};,=]+ = /, "{ ", text)
    n = words(text, word)
    for (i = 1; i <= n; i++) {
        if (!citable(word[i])) continue
        mark = (word[i] in local || head_of(word[i]) in local) ? " ?" : " "
        cited_words[now] = cited_words[now] mark word[i]
        if (in_signature) stated_words[now] = stated_words[now] mark word[i]
    }
}

# ---- Rattle

# One line of a Rattle file.
function read_rattle(module, line,    crate, file, name, part, n, i, text) {
    crate = module
    sub(/\/.*$/, "", crate)
    file = module
    sub(/^.*\//, "", file)
    if (module != reading) { reading = module; pending = 0; within = ""; function_now = ""; type_now = ""; use_now = "" }
    if (use_now != "") { use_now = use_now " " line; if (line ~ /;/) take_types(module, crate); return }
    if (function_now != "") { read_header(line); return }
    if (type_now != "") {
        lines_of[type_now]++
        text_at[type_now] = text_at[type_now] line "\n"
        type_text(line)
        if (line ~ /^\}/) type_now = ""
        return
    }
    if (line ~ /^ *$/) { pending = 0; return }
    if (line ~ /^ *\/\//) { pending++; return }
    if (line ~ /^ *#!?\[/) return
    if (line ~ /^ghost use /) { read_use(module, line); return }
    if (line ~ /^(pub )*use /) { use_now = line; if (line ~ /;/) take_types(module, crate); return }
    if (line ~ /^impl /) { within = line; sub(/^impl /, "", within); sub(/[ <{].*$/, "", within); within = within "::"; return }
    if (line ~ /^\}/) { within = ""; pending = 0; return }
    if (line ~ /^(pub )*(enum|struct) /) {
        name = line
        sub(/^(pub )*(enum|struct) /, "", name)
        sub(/[ (<{].*$/, "", name)
        type_now = crate "/src:" name
        defined[type_now] = 1
        order[++definitions] = type_now
        module_at[type_now] = crate "/src"
        name_at[type_now] = name
        kind_at[type_now] = "type"
        type_file[type_now] = module
        lines_of[type_now] = 1 + pending
        text_at[type_now] = line "\n"
        pending = 0
        text = line
        sub(/^(pub )*(enum|struct) [^ (<{]*/, "", text)
        type_text(text)
        if (line ~ /;$/ || line ~ /\}$/) type_now = ""
        return
    }
    if (line ~ /^ *(pub )?(extern "C" )?fn /) {
        name = line
        sub(/^ *(pub )?(extern "C" )?fn /, "", name)
        sub(/[(<].*$/, "", name)
        function_now = crate "::" (file == "lib" || file == "main" ? "" : file "::") within name
        function_of[++functions] = function_now
        is_public[function_now] = line ~ /^ *pub /
        crate_at[function_now] = crate
        src_at[function_now] = module
        place_at[function_now] = FILENAME ":" FNR
        header_lines[function_now] = pending
        clause = "signature"
        pending = 0
        read_header(line)
        return
    }
    pending = 0
}

# The names of a `use` of Rattle, each with its path, into the array; answers how many. Behind the path stands the name that it gets here, if it is another.
function used_names(text, into,    n) {
    sub(/^(pub )*use /, "", text)
    sub(/;.*$/, "", text)
    gsub(/ +as +/, "\t", text)
    gsub(/ /, "", text)
    split("", into)
    return spread("", text, into, 0)
}

# The paths of a text with braces, behind what stands before it.
function spread(before, text, into, n,    i, sign, depth, from, piece, at) {
    from = 1
    text = text ","
    for (i = 1; i <= length(text); i++) {
        sign = substr(text, i, 1)
        if (sign == "{") depth++
        if (sign == "}") depth--
        if (sign != "," || depth > 0) continue
        piece = substr(text, from, i - from)
        from = i + 1
        if (piece == "") continue
        at = index(piece, "{")
        if (at == 0) into[++n] = before piece
        else n = spread(before substr(piece, 1, at - 1), substr(piece, at + 1, length(piece) - at - 1), into, n)
    }
    return n
}

# The types that a `use` of Rattle brings in.
function take_types(module, crate,    path, part, n, i, k, here) {
    n = used_names(use_now, path)
    use_now = ""
    for (i = 1; i <= n; i++) {
        here = path[i]
        sub(/\t.*$/, "", path[i])
        sub(/^.*(::|\t)/, "", here)
        k = split(path[i], part, "::")
        used_type[module, here] = (part[1] == "crate" || part[1] == "self" ? crate : part[1]) "/src:" part[k]
    }
}

# The types that a type of src/ is made of.
function type_text(line,    word, n, i) {
    sub(/\/\/.*$/, "", line)
    gsub(/[^A-Za-z0-9_]/, " ", line)
    n = split(line, word, " ")
    for (i = 1; i <= n; i++) if (word[i] ~ /^[A-Z]/) cited_words[type_now] = cited_words[type_now] " " word[i]
}

# A function's signature and clauses, up to its body.
function read_header(line,    body) {
    body = line ~ /^ *\{ *$/
    if (!body) {
        header_lines[function_now]++
        if (line ~ /^ *requires /) { clause = "requires"; has_requires[function_now] = 1 }
        if (line ~ /^ *ensures /) { clause = "ensures"; has_ensures[function_now]++ }
        if (clause == "signature" && line ~ /\{ *\}? *$/) body = 1
        text_of[function_now, clause] = text_of[function_now, clause] " " line
    }
    if (body) function_now = ""
}

# ---- what a word stands for

# The definition or type that a word of a module cites: its id, `kit name`, or nothing where it is a local name. `hidden` words count where they are
# constructors.
function resolve(module, word, hidden,    n, part, head, last, target) {
    if (word ~ /^Rattle\./) {
        n = split(word, part, ".")
        last = part[n]
        head = substr(word, 1, length(word) - length(last) - 1)
        return in_module(module_of(head), last)
    }
    if (!((module SUBSEP word) in bound) && !((module SUBSEP word) in owner) && index(word, ".") > 0) {
        n = split(word, part, ".")
        head = part[1]
        last = part[n]
        if ((module SUBSEP head) in alias) {
            target = alias[module, head]
            return in_module(target, last)
        }
        return resolve(module, head, hidden)
    }
    if (!((module SUBSEP word) in bound) && !((module SUBSEP word) in owner)) {
        n = split(word, part, "\342\227\214")
        last = ""
        while (n > 0 && last == "") last = part[n--]
        if (!((module SUBSEP last) in operator)) return ""
        word = operator[module, last]
    }
    if ((module SUBSEP word) in bound) {
        target = bound[module, word]
        last = bound_name[module, word]
        if (hidden && target !~ /^(kit|variants) / && !((target SUBSEP last) in constructor)) return ""
        return in_module(target, last)
    }
    if (!((module SUBSEP word) in owner)) return ""
    if (hidden && !((module SUBSEP word) in constructor)) return ""
    return owner[module, word]
}

# The definition of that name in a module.
function in_module(target, name) {
    if (target ~ /^kit /) return target "." name
    if (target ~ /^(type|variants) /) { sub(/^[a-z]* /, "", target); return target }
    if ((target SUBSEP name) in owner) return owner[target, name]
    return "unknown " target "." name
}

# The type of src/ that a word of a Rattle module names, or nothing.
function resolve_type(module, word,    crate) {
    if ((module SUBSEP word) in used_type) return used_type[module, word] in defined ? used_type[module, word] : ""
    crate = module
    sub(/\/.*$/, "", crate)
    return (crate "/src:" word) in defined ? crate "/src:" word : ""
}

# The module of a file: crates/c/specs/A.antt is c/specs/A.
function module_of_file(file,    crate, kind) {
    sub(/^.*crates\//, "", file)
    sub(/\.(antt|rt)$/, "", file)
    crate = file
    sub(/\/.*$/, "", crate)
    file = substr(file, length(crate) + 2)
    kind = file
    sub(/\/.*$/, "", kind)
    file = substr(file, length(kind) + 2)
    gsub(/\//, ".", file)
    return crate "/" kind "/" file
}

function fails(message) { print message > "/dev/stderr"; failed = 2; exit 2 }
