# The work of names.sh, on crates.txt, the list of all files, the sources and the documents.

# ---- what there is

# NAME: DEP DEP .., or NAME staticlib: DEP DEP ..; lower layers come first, so what each of them stands on is known
kind == "crates" && /^[a-z]/ {
    name = $1
    sub(/:$/, "", name)
    below[name] = name
    line = $0
    sub(/#.*/, "", line)
    if (!sub(/^[^:]*:/, "", line))
        line = ""
    n = split(line, word, " ")
    for (i = 1; i <= n; i++)
        if (word[i] in below)
            below[name] = below[name] " " below[word[i]]
}

kind == "files" {
    path[$0] = 1
    last = $0
    sub(/.*\//, "", last)
    ending[last] = 1
}

kind == "source" && FNR == 1 {
    split(FILENAME, at, "/")
}

# a definition or law `name : ..`, a field or a constructor; a record or data
kind == "source" && FILENAME ~ /\.antt$/ {
    line = $0
    sub(/^ +/, "", line)
    while (sub(/^(abbrev|unfoldable|pub) +/, "", line))
        ;
    if (line ~ /^(record|data) /) {
        split(line, word, " ")
        define(word[2])
    } else if (match(line, /^[^ (){}:]+ :( |$)/))
        define(substr(line, 1, index(line, " ") - 1))
}

# an item, the variant of an enum, and a group of the model's cases: ("name", ..
kind == "source" && FILENAME !~ /\.antt$/ && !/^ *\/\// {
    if (match($0, /(fn|struct|enum|const|type|mod) +[A-Za-z0-9_]+/)) {
        split(substr($0, RSTART, RLENGTH), word, " ")
        define(word[2])
        if (word[1] == "fn")
            function_of[at[1] == "crates" ? at[2] : FILENAME, word[2]] = 1
    } else if (match($0, /^ +[A-Z][A-Za-z0-9]*/))
        define(substr($0, RSTART, RLENGTH))
    if (match($0, /\("[a-z0-9_]+",/))
        define(substr($0, RSTART + 2, RLENGTH - 4))
}

function define(name) {
    gsub(/ /, "", name)
    anywhere[name] = in_file[FILENAME, name] = 1
    in_crate[at[2], name] = 1
}

# ---- what the documents name

# context: the crates whose names may follow in this cell, or next to it; edited: the crates of the edits in this row;
# before: the names of the list that ends here
kind == "document" {
    table = /^\|/
    folder = FILENAME
    if (!sub(/\/[^\/]*$/, "", folder))
        folder = "."
    context = edited = before = ""
    rest = $0
    while (match(rest, /`[^`]*`/)) {
        quoted = substr(rest, RSTART + 1, RLENGTH - 2)
        after = substr(rest, RSTART + RLENGTH)
        plain(substr(rest, 1, RSTART - 1))
        code(quoted)
        rest = after
    }
    plain(rest)
}

function code(text,   words, n, i) {
    if (text == "use")
        return
    if (text ~ /^[A-Za-z_][^ \/.,:;&()]*$/) {
        before = before " " text
        if (context != "") {
            if (!known(context, text))
                missing(text, "not in " context " nor below")
        } else if (text ~ /[a-z][A-Z_-]/ && !(text in anywhere) && !(text in below))
            missing(text, "nowhere")
        return
    }
    before = ""
    n = split(text, words, " ")
    for (i = 1; i <= n; i++)
        look_up(words[i], n == 1)
}

# what stands between two quoted texts
function plain(text,   n, i, cells) {
    if (text ~ /^(, |; | and |, and | or )?$/)
        return
    if (table && (n = split(text, cells, "|")) > 1) {
        between(cells[1])
        for (i = 2; i <= n; i++) {
            context = edited
            before = ""
            between(cells[i])
        }
        return
    }
    between(text)
}

function between(text,   words, n, i, file) {
    gsub(/[^A-Za-z0-9_.\/:*-]/, " ", text)
    n = split(text, words, " ")
    if (before != "" && (text ~ /^  [a-z]/ || words[1] == "in")) {
        file = file_of(words[words[1] == "in" ? 2 : 1])
        if (file != "")
            all_in(before, file)
    }
    if (text !~ /^ *$/)
        before = ""
    for (i = 1; i <= n; i++) {
        if (!table)
            context = ""
        look_up(i > 1 && words[i] ~ /^src\// && words[i - 1] in below ? words[i - 1] "/" words[i] : words[i], 0)
    }
}

# the file of definitions or laws that a word names
function file_of(word) {
    sub(/[.:]+$/, "", word)
    if (word ~ /\.antt$/)
        return (word in path) ? word : ("crates/" word) in path ? "crates/" word : ""
    if (word ~ /^[a-z0-9_]+\/[A-Z][A-Za-z0-9]*$/)
        return antt(word)
    return ""
}

# crate/File, crate/specs/File or crate/proofs/File
function antt(word,   p, n, file) {
    n = split(word, p, "/")
    if (n == 3)
        return (file = "crates/" word ".antt") in path ? file : ""
    if ((file = "crates/" p[1] "/specs/" p[2] ".antt") in path)
        return file
    return (file = "crates/" p[1] "/proofs/" p[2] ".antt") in path ? file : ""
}

function all_in(names, file,   word, n, i) {
    n = split(names, word, " ")
    for (i = 1; i <= n; i++)
        if (!((file, word[i]) in in_file))
            missing(word[i], "not in " file)
}

function known(crates, name,   crate, word, n, m, i, j) {
    n = split(crates, crate, " ")
    for (i = 1; i <= n; i++) {
        m = split(below[crate[i]], word, " ")
        for (j = 1; j <= m; j++)
            if ((word[j], name) in in_crate)
                return 1
    }
    return 0
}

function look_up(word, alone,   p, n, file, name) {
    if (word !~ /\.\.$/)
        sub(/[.:]+$/, "", word)
    if (match(word, /^crates\/[a-z0-9_]+\/out(\/|$)/)) {
        split(word, p, "/")
        if (!(p[2] in below))
            missing(word, "no such crate")
        return
    }
    if (word ~ /^\// || word ~ /^target\// || word ~ /:\/\// || word ~ /(^|\/)[A-Z]+(\/|$|\.[a-ln-z])/)
        return
    if (word ~ /^[a-z0-9_]+::[a-z0-9_]+$/)
        return call(word)
    n = split(word, p, "/")
    if (n == 1) {
        if (alone && is_file(word) && !(word in ending))
            missing(word, "no such file")
        return
    }
    if (!(p[1] in below))
        return tree(word)
    if (word ~ /^[a-z0-9_]+\/((specs|proofs)\/)?[A-Z][A-Za-z0-9]*(:[^\/]+)?$/) {
        name = file = word
        sub(/:.*/, "", file)
        file = antt(file)
        context = p[1]
        if (file == "")
            missing(word, "no such file")
        else if (sub(/^[^:]*:/, "", name) && !((file, name) in in_file))
            missing(word, "not in " file)
    } else if (word ~ /^[a-z0-9_]+\/[a-z0-9_]+$/ && !(("crates/" word) in path)) {
        edited = edited (edited == "" ? "" : " ") p[1]
        if (!(("crates/" p[1] "/must-fail/" p[2] ".edit") in path))
            missing(word, "no such edit")
    } else
        tree(word)
}

# a function of a crate, or of a file beside the document
function call(word,   p) {
    split(word, p, "::")
    if ((folder "/tests/" p[1] ".rs", p[2]) in function_of || (folder "/src/" p[1] ".rs", p[2]) in function_of)
        return
    if ((folder "/tests/" p[1] ".rs") in path)
        return missing(word, "no such function in " folder "/tests/" p[1] ".rs")
    if (p[1] in below) {
        context = p[1]
        if (!((p[1], p[2]) in function_of))
            missing(word, "no such function")
    }
}

function is_file(word) {
    return word ~ /^[^*]+\.(antt|rt|rs|md|sh|awk|txt|edit|guide|run|show|book|toml|c)$/
}

# a path, with * for any names, and .. at its end for any ending
function tree(word,   first, pattern, f) {
    sub(/\/$/, "", word)
    if (word ~ /^\.\.\//)
        sub(/^\.\.\//, "", word)
    first = word
    sub(/\/.*/, "", first)
    if (!is_file(word) && !(first in path) && !((folder "/" first) in path) && !(("crates/" first) in path))
        return
    if (word in path || (folder "/" word) in path || (folder "/src/" word) in path || ("crates/" word) in path)
        return
    if (word ~ /\*/ || word ~ /\.\.$/) {
        pattern = word
        sub(/\.\.$/, "*", pattern)
        gsub(/\./, "\\.", pattern)
        gsub(/\*/, "[^/]*", pattern)
        for (f in path)
            if (f ~ ("^" pattern "$"))
                return
    }
    missing(word, "no such file")
}

function missing(name, why) {
    if (!((FILENAME, FNR, name) in told))
        print FILENAME ":" FNR ": " name ": " why
    told[FILENAME, FNR, name] = 1
    count++
}

END {
    exit (count > 0)
}
