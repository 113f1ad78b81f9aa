# Finds the definitions that the contracts of public items reach, through the words that they cite and the imports of their files. It is
# given files of specs/ and src/ (an argument `group=N` before the src/ files whose contracts are roots, `group=0` before others), and
# writes a line for each definition that is reached:
#     GROUP <tab> FILE <tab> LINE <tab> LAST LINE <tab> NAME <tab> what it is <tab> the comment above it
# and for each declared type that definitions use, with `type` for what it is. GROUP is the first whose contracts reach it.
# With `private=1` before files all their functions count, for a program has none that are public. With `-v all=1` the definitions
# that none reaches follow, with `-` as their group. With `-v links=1` it writes too, for each word that it follows and each call with a contract
# that it begins from:
#     link <tab> FILE <tab> WORD <tab> FILE OF THE DEFINITION <tab> NAME
#     call <tab> GROUP <tab> FILE <tab> LINE <tab> TYPE <tab> NAME

function trimmed(text) {
    gsub(/^[ \t]+|[ \t]+$/, "", text)
    return text
}

# crates/X/specs/A/B.antt as X.specs.A.B
function module_of(path) {
    sub(/^crates\//, "", path)
    sub(/\.antt$/, "", path)
    gsub(/\//, ".", path)
    return path
}

# the words of a name with holes: what an infix use of it looks like
function word_of(name) {
    gsub(/◌/, " ", name)
    name = trimmed(name)
    sub(/ .*/, "", name)
    return name
}

# notes what an import line of file `at` brings
function imports(at, line,    path, names, list, n, i, parts, original, as) {
    sub(/^[ \t]*(pub )?(ghost )?use Rattle\./, "", line)
    sub(/;[ \t]*$/, "", line)
    line = trimmed(line)
    if (line !~ /^avc_/) return
    if (match(line, /\.\{/)) {
        path = substr(line, 1, RSTART - 1)
        names = substr(line, RSTART + 2)
        sub(/\}.*/, "", names)
        n = split(names, list, ",")
        for (i = 1; i <= n; i++) {
            original = trimmed(list[i])
            as = original
            if (original ~ / as /) {
                as = original
                sub(/.* as /, "", as)
                sub(/ as .*/, "", original)
            }
            imported[at, word_of(as)] = path "|" original
        }
    } else {
        as = line
        if (line ~ / as /) {
            sub(/.* as /, "", as)
            sub(/ as .*/, "", line)
        } else sub(/.*\./, "", as)
        alias[at, as] = line
    }
}

# begins a definition of the file at hand
function begin_definition(name, what) {
    current = module SUBSEP word_of(name)
    if (!(current in first_line)) {
        order[++definitions] = current
        module_for[current] = module
        file_for[current] = FILENAME
        name_for[current] = name
        what_for[current] = what
        first_line[current] = FNR
        comment_for[current] = comment
    }
    last_line[current] = FNR
    comment = ""
}

function add_text(line) {
    sub(/(^| )-- .*$/, "", line)
    text_for[current] = text_for[current] "\n" line
    if (trimmed(line) != "") last_line[current] = FNR
}

# ---- definitions

FNR == 1 {
    current = ""
    comment = ""
    in_specs = FILENAME ~ /\/specs\//
    module = module_of(FILENAME)
    if (in_specs) { known[module] = 1; path_of[module] = FILENAME }
    crate = FILENAME
    sub(/^crates\//, "", crate)
    sub(/\/.*/, "", crate)
    clause = 0
    item = ""
    owner = ""
    file_at = in_specs ? module : FILENAME
}

in_specs && /^(pub )?use / { imports(module, $0); current = ""; next }
in_specs && /^(pub )?mod / { next }
in_specs && /^(infix|infixl|infixr|unfolding)/ { next }
in_specs && /^--/ {
    line = $0
    sub(/^-- ?/, "", line)
    comment = comment (comment == "" ? "" : " ") line
    current = ""
    next
}
in_specs && /^$/ { if (current == "") comment = ""; next }
in_specs && /^(pub )?(data|record) / {
    line = $0
    sub(/^pub /, "", line)
    what = line
    sub(/ .*/, "", what)
    sub(/^[a-z]+ /, "", line)
    sub(/ .*/, "", line)
    begin_definition(line, what)
    add_text($0)
    next
}
in_specs && /^((abbrev|unfoldable) )?(pub )?[^ ]+ :( |$)/ {
    line = $0
    sub(/^(abbrev|unfoldable) /, "", line)
    sub(/^pub /, "", line)
    name = line
    sub(/ .*/, "", name)
    begin_definition(name, "definition")
    add_text(substr(line, length(name) + 1))
    next
}
in_specs && current != "" {
    add_text($0)
    # a constructor or a field
    if (what_for[current] != "definition" && /^  (pub )?[^ ]+ :/) {
        line = $0
        sub(/^  (pub )?/, "", line)
        sub(/ .*/, "", line)
        if (line !~ /^--/ && !((module, line) in first_line)) part_of[module, line] = current
    }
    next
}
in_specs { next }

# ---- contracts

/^[ \t]*ghost use / { imports(FILENAME, $0); next }
/^[ \t]*(pub )?use / {
    # what lib.rt passes on is public, and where a type comes from
    if (FILENAME ~ /\/src\/lib\.rt$/ && /^pub use /) exporting = 1
}
exporting {
    line = $0
    gsub(/^pub use |[{};,]|::/, " ", line)
    n = split(line, words, " ")
    for (i = 1; i <= n; i++) exported[crate, words[i]] = 1
    if (/;/) exporting = 0
    next
}
/^pub (struct|enum|trait) / || /^(struct|enum) / || /^pub\(crate\) (struct|enum) / {
    line = $0
    sub(/^pub(\(crate\))? /, "", line)
    what = line
    sub(/ .*/, "", what)
    sub(/^[a-z]+ /, "", line)
    name = line
    sub(/[^A-Za-z0-9_].*/, "", name)
    type_file[crate, name] = FILENAME
    type_line[crate, name] = FNR
    type_comment[crate, name] = comment
    crates_with[name] = crates_with[name] " " crate
    type_at = crate SUBSEP name
    owner = name
    is_trait = what == "trait"
    in_type = !is_trait && /\{$|\($/
    if (!in_type) type_text[type_at] = $0
}
/^\/\/\// {
    line = $0
    sub(/^\/\/\/ ?/, "", line)
    comment = comment (comment == "" ? "" : " ") line
    next
}
/^#\[/ { next }
/^[^ \t}]/ { comment = "" }
in_type {
    type_text[type_at] = type_text[type_at] "\n" $0
    type_end[type_at] = FNR
    if (/^[})]/) in_type = 0
    next
}
/^(unsafe )?impl/ {
    line = $0
    sub(/^(unsafe )?impl/, "", line)
    if (line ~ /^</) {
        depth = 0
        for (i = 1; i <= length(line); i++) {
            c = substr(line, i, 1)
            if (c == "<") depth++
            if (c == ">" && --depth == 0) break
        }
        line = substr(line, i + 1)
    }
    line = trimmed(line)
    is_impl_of_trait = line ~ / for /
    is_model = line ~ /^Model for /
    if (is_impl_of_trait) sub(/.* for /, "", line)
    sub(/[^A-Za-z0-9_].*/, "", line)
    owner = line
    is_trait = 0
}
# what a type or trait says goes on until its braces are closed
/^[ \t]*ghost / {
    line = $0
    open = gsub(/\{/, "", line) - gsub(/\}/, "", line)
    while (open > 0 && (getline line) > 0) {
        $0 = $0 " " trimmed(line)
        open += gsub(/\{/, "", line) - gsub(/\}/, "", line)
    }
}
# what a public type stands for
/^[ \t]*ghost (Value|view) = / && is_model {
    model_text[crate, owner] = model_text[crate, owner] "\n" $0
    model_file[crate, owner] = FILENAME
    if (group > 0 && (crate, owner) in exported) roots[++root_count] = group SUBSEP FILENAME SUBSEP $0
}
/^[ \t]*ghost / && is_trait && group > 0 && (crate, owner) in exported { roots[++root_count] = group SUBSEP FILENAME SUBSEP $0 }
# what a public type gives for the words of a trait
/^[ \t]*ghost / && is_impl_of_trait && !is_model && !is_trait && group > 0 && (crate, owner) in exported { roots[++root_count] = group SUBSEP FILENAME SUBSEP $0 }
/^[ \t]*(pub )?(unsafe )?(const )?(extern "C" )?fn / {
    line = $0
    sub(/.*fn /, "", line)
    sub(/[^A-Za-z0-9_].*/, "", line)
    item = line
    top = /^[a-z]/
    public = /^[ \t]*pub /
    is_root = 0
    if (group > 0 && private) is_root = 1
    else if (group > 0) {
        if (top) is_root = public && ((crate, item) in exported || FILENAME ~ /\/(laws|lib)\.rt$/)
        else is_root = (public || is_impl_of_trait || is_trait) && (crate, owner) in exported
    }
    clause = 0
    if (is_root && links) print "call\t" group "\t" FILENAME "\t" FNR "\t" (top ? "" : owner) "\t" item
}
/^[ \t]*(ensures|requires)/ && is_root { clause = 1; open = 0 }
clause {
    line = $0
    roots[++root_count] = group SUBSEP FILENAME SUBSEP line
    open += gsub(/\{/, "{", line) - gsub(/\}/, "}", line)
    if (open <= 0) clause = 0
}

# ---- what is reached

# the node that a name of a module means, or nothing
function resolve(path, name,    rest, parts, n, key, lib, last) {
    if (path ~ /\.specs\.declared\./) {
        n = split(path, parts, ".")
        # X.specs.declared.FILE.TYPE or with .TheVariants
        return "type" SUBSEP parts[1] SUBSEP parts[5]
    }
    name = word_of(name)
    if ((path, name) in first_line) return "def" SUBSEP path SUBSEP name
    if ((path, name) in part_of) return "def" SUBSEP part_of[path, name]
    if ((path, name) in imported) {
        split(imported[path, name], parts, "|")
        return resolve(parts[1], parts[2])
    }
    if (path in known) return ""
    # a module that the crate's Lib passes on
    n = split(path, parts, ".")
    last = parts[n]
    lib = parts[1] ".specs.Lib"
    if ((lib, last) in alias) return resolve(alias[lib, last], name)
    return ""
}

function reach(node, by) {
    if (node == "") return
    if (links && !((at_file, at_word, node) in linked)) {
        linked[at_file, at_word, node] = 1
        split(node, parts_of_node, SUBSEP)
        if (parts_of_node[1] == "def")
            print "link\t" at_file "\t" at_word "\t" file_for[parts_of_node[2], parts_of_node[3]] "\t" name_for[parts_of_node[2], parts_of_node[3]]
        else if ((parts_of_node[2], parts_of_node[3]) in type_file)
            print "link\t" at_file "\t" at_word "\t" type_file[parts_of_node[2], parts_of_node[3]] "\t" parts_of_node[3]
    }
    if (node in reached) return
    reached[node] = by
    queue[++queued] = node
}

# follows the words of a text in the file that it stands in
function follow(at, text, by,    n, words, i, word, head, rest, parts, flat) {
    at_file = (at in path_of) ? path_of[at] : at
    flat = text
    # names that are bound: (a b : A)
    gsub(/\([A-Za-z_'0-9 ]+ : /, "( : ", flat)
    gsub(/[(){},;]|\[|\]|→|×|λ|↦|\||≡/, " & ", flat)
    gsub(/\n/, " ", flat)
    n = split(flat, words, /[ \t]+/)
    for (i = 1; i <= n; i++) {
        word = words[i]
        if (word == "" || word ~ /^[0-9.]+$/) continue
        # a field that is given in a record
        if (i < n && words[i + 1] == "=" && i > 1 && (words[i - 1] == "{" || words[i - 1] == ";" || words[i - 1] == "let")) continue
        head = word
        rest = ""
        if (word ~ /^[^.]+\.[^.]/) {
            head = word
            sub(/\..*/, "", head)
            rest = substr(word, length(head) + 2)
            sub(/\..*/, "", rest)
        }
        at_word = head
        if (rest != "" && (at, head) in alias) at_word = head "." rest
        if (rest != "" && (at, head) in alias) { reach(resolve(alias[at, head], rest), by); continue }
        if ((at, head) in imported) {
            split(imported[at, head], parts, "|")
            reach(resolve(parts[1], parts[2]), by)
        } else if ((at, head) in first_line) reach("def" SUBSEP at SUBSEP head, by)
        else if ((at, head) in part_of) reach("def" SUBSEP part_of[at, head], by)
    }
}

# the types in the fields of a declared type
function follow_type(its_crate, name, by,    flat, n, words, i, other, list, m, k) {
    if (!((its_crate, name) in type_file)) return
    if ((its_crate, name) in model_text) {
        follow(model_file[its_crate, name], model_text[its_crate, name], by)
        # what it is made of is not seen
        return
    }
    at_file = type_file[its_crate, name]
    flat = type_text[its_crate, name]
    gsub(/\/\/[^\n]*/, " ", flat)
    # the name of a variant is no type
    gsub(/\n    [A-Z][A-Za-z0-9_]*/, " ", flat)
    gsub(/[^A-Za-z0-9_]/, " ", flat)
    n = split(flat, words, " ")
    for (i = 1; i <= n; i++) {
        if (words[i] !~ /^[A-Z]/ || words[i] == name) continue
        at_word = words[i]
        if ((its_crate, words[i]) in type_file) { reach("type" SUBSEP its_crate SUBSEP words[i], by); continue }
        m = split(crates_with[words[i]], list, " ")
        for (k = 1; k <= m; k++) if ((list[k], words[i]) in exported) { reach("type" SUBSEP list[k] SUBSEP words[i], by); break }
    }
}

END {
    done = 0
    for (g = 1; g <= 9; g++) {
        for (i = 1; i <= root_count; i++) {
            split(roots[i], root, SUBSEP)
            if (root[1] == g) follow(root[2], root[3], g)
        }
        while (done < queued) {
            node = queue[++done]
            split(node, parts, SUBSEP)
            if (parts[1] == "def") follow(module_for[parts[2], parts[3]], text_for[parts[2], parts[3]], g)
            else follow_type(parts[2], parts[3], g)
        }
    }
    for (i = 1; i <= definitions; i++) {
        key = order[i]
        node = "def" SUBSEP key
        if (node in reached || all)
            print ((node in reached) ? reached[node] : "-") "\t" file_for[key] "\t" first_line[key] "\t" last_line[key] "\t" name_for[key] "\t" what_for[key] "\t" comment_for[key]
    }
    for (i = 1; i <= queued; i++) {
        split(queue[i], parts, SUBSEP)
        if (parts[1] != "type" || !((parts[2], parts[3]) in type_file)) continue
        key = parts[2] SUBSEP parts[3]
        print reached[queue[i]] "\t" type_file[key] "\t" type_line[key] "\t" type_end[key] "\t" parts[3] "\ttype\t" type_comment[key]
    }
}
