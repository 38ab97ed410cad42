# What a reader of the core has to believe, followed from docs/STATEMENTS.md. See tools/believed.
# Input: docs/STATEMENTS.md, then every .antt and .rt file below crates/. Lines are counted without
# blank ones and imports.

function wrong(text) {
    print "believed: " text
    faults++
}

# The name of a definition, a field or a constructor on this line, or nothing.
function defined(line) {
    sub(/^ +/, "", line)
    sub(/^abbrev /, "", line)
    sub(/^unfoldable /, "", line)
    sub(/^pub /, "", line)
    if (line ~ /^(record|data) /) {
        sub(/^[a-z]+ /, "", line)
        sub(/ .*/, "", line)
        return line
    }
    if (line !~ /^[^ ]+ :/ && line !~ /^[^ ]+ \{[^}]*\} :/) return ""
    sub(/ .*/, "", line)
    return line
}

# The file of the crate's own that an import names, or nothing: "crates/X/specs/Y.antt", "proofs" for
# anything of proofs/. What the library has, and types that Rattle makes of an enum or a struct, are no files.
function imported(line, crate, part) {
    sub(/^(ghost )?use /, "", line)
    if (line !~ /^Rattle\./ || line ~ /^Rattle\.std\./) return ""
    sub(/^Rattle\./, "", line)
    if (line ~ /^[a-z_0-9]+\.proofs([. ;]|$)/) return "proofs"
    crate = line
    sub(/\..*/, "", crate)
    gsub(/[^a-z_0-9]/, "", crate)
    if (line !~ /specs\./) return ""
    sub(/^.*specs\./, "", line)
    part = line
    sub(/[.; ].*/, "", part)
    if (part == "declared") return ""
    return "crates/" crate "/specs/" part ".antt"
}

# Whether a word stands in a text.
function has_word(text, word) {
    return (" " text " ") ~ ("[^A-Za-z0-9_'-]" word "[^A-Za-z0-9_'-]")
}

FILENAME ~ /STATEMENTS/ { statement[++statements] = $0; next }

FNR == 1 {
    name = FILENAME
    crate = name
    sub(/^crates\//, "", crate)
    sub(/\/.*/, "", crate)
    kind = name ~ /\/specs\// ? "specs" : name ~ /\/proofs\// ? "proofs" : name ~ /\.rt$/ ? "src" : ""
    exists[name] = 1
    if (kind == "specs" && name !~ /\/Lib\.antt$/) spec[++specs] = name
    inside = 0
}

kind == "specs" || kind == "proofs" {
    if ($0 != "" && $0 !~ /^use /) lines[name]++
    d = defined($0)
    if (d != "") def[name, d] = $0
    if (kind == "specs" && $0 !~ /^ *--/ && $0 !~ /^use /) said[name] = said[name] " " $0
    if (kind == "specs" && /^pub record /) {
        record = d
        if ($0 ~ ("^pub record " d " : ")) closed[name, ++closeds[name]] = d
    } else if (/^[^ -]/) record = ""
    if (record != "" && $0 !~ /^ *--/) body[name, record] = body[name, record] " " $0
    if (d != "" && kind == "specs" && $0 !~ /^ /) top[name, ++tops[name]] = d
}

kind == "specs" && /^use / {
    f = imported($0)
    if (f == "proofs") wrong(name " imports a proof: " $0)
    else if (f != "" && f != name) edge[name, ++edges[name]] = f
}

kind == "src" && /^ghost use / {
    f = imported($0)
    if (f == "proofs") wrong(name " imports a proof: " $0)
    else if (f != "") {
        names = $0
        sub(/^[^{]*\{/, "", names)
        sub(/\}.*/, "", names)
        count = split(names, parts, /, */)
        for (i = 1; i <= count; i++) {
            n = parts[i]
            sub(/.* as /, "", n)
            ghost[name, ++ghosts[name]] = n
            from[name, n] = f
        }
        if ($0 !~ /\{/) {
            n = $0
            sub(/;.*/, "", n)
            sub(/.* as /, "", n)
            sub(/.*\./, "", n)
            ghost[name, ++ghosts[name]] = n
            from[name, n] = f
        }
    }
}

kind == "src" && /^ *pub (extern "C" )?fn / {
    f = $0
    sub(/^ *pub (extern "C" )?fn /, "", f)
    sub(/[(<].*/, "", f)
    f = crate "::" f
    inside = 1
    source[f] = name
    contract[f] = ""
    if ($0 ~ /extern/) exported[++exports] = f
}

inside {
    text = $0
    sub(/\/\/.*/, "", text)
    contract[f] = contract[f] " " text
    if (/^ *\{/) inside = 0
}

# ---- following

# Every file that a believed file needs, before the file itself.
function read_file(file, why, i) {
    if (file in reached) return
    reached[file] = 1
    if (!(file in exists)) { wrong(why " names " file ", which is not there"); return }
    if (file ~ /\/Inner\.antt$/) { wrong(why " cites the inner definitions of " file); return }
    for (i = 1; i <= edges[file]; i++) read_file(edge[file, i], file)
    reading[++readings] = file
}

# Whether the contents of a parameter after the call stand in a text.
function has_exit(text, name) {
    return has_word(text, name "\\.new") || has_word(text, "«" name "»\\.new")
}

# Whether a file, or one that it imports, speaks of a relation outside the relation's own file.
function speaks(file, relation, home, i) {
    if (file == home || file ~ /\/Figures\.antt$/) return 0
    if (has_word(said[file], relation)) return 1
    for (i = 1; i <= edges[file]; i++) if (speaks(edge[file, i], relation, home)) return 1
    return 0
}

# An entry, or its function for C: it has one ensures, which is the relation, and no requires.
function entry(f, relation, file, text, i, n, s) {
    if (!(f in contract)) { wrong("no entry " f); return }
    text = contract[f]
    listed[f] = 1
    if (has_word(text, "requires")) wrong(f " has a requires")
    if (gsub(/ensures/, "ensures", text) != 1) wrong(f " has not one ensures")
    # The relation is the whole sentence, and it speaks of the result and of all lent memory after the call.
    s = text
    sub(/^.*ensures *\{ */, "", s)
    sub(/ *\}[^}]*$/, "", s)
    sub(/^[A-Za-z]+\./, "", s)
    if (s !~ ("^" relation " ")) wrong(f " does not ensure " relation)
    if (s ~ /→|×|⊎|≡|λ/) wrong(f " ensures more or less than " relation)
    n = split(text, word, /[ (]+/)
    for (i = 2; i <= n; i++) {
        if (word[i] !~ /^&mut/) continue
        sub(/:$/, "", word[i - 1])
        if (!has_exit(s, word[i - 1])) wrong(f " says nothing of " word[i - 1] " after the call")
    }
    if (!((file, relation) in def)) wrong(file " has no " relation)
    s = source[f]
    for (i = 1; i <= ghosts[s]; i++) {
        n = ghost[s, i]
        if (has_word(text, n)) read_file(from[s, n], f)
    }
    read_file(file, f)
}

# The words in backquotes of a text, and their number.
function quoted(text, words, n, bits, i) {
    n = split(text, bits, "`")
    for (i = 2; i <= n; i += 2) words[i / 2] = bits[i]
    return int(n / 2)
}

# Names and files of a row: a file is followed by names that stand in it.
function names_of(row, text, n, i, t, file, folder) {
    n = quoted(text, token)
    file = ""
    for (i = 1; i <= n; i++) {
        t = token[i]
        if (t ~ /^[a-z_]+\/(specs|proofs)\/[A-Za-z0-9_\/]+\.antt$/) {
            file = "crates/" t
            if (!(file in exists)) wrong("STATEMENTS, line " row ": no file " t)
        } else if (t ~ /^[a-z_]+::[a-z_]+(::[a-z_]+)*$/) {
            f = t
            sub(/::.*::/, "::", f)
            if (!(f in contract)) wrong("STATEMENTS, line " row ": no function " t)
        } else if (t ~ /^[a-z_]+\/src\/[a-z_]+\.rt$/) {
            if (!(("crates/" t) in exists)) wrong("STATEMENTS, line " row ": no file " t)
        } else if (file != "" && t ~ /^[A-Za-z][A-Za-z0-9_'-]*$/) {
            if (!((file, t) in def)) wrong("STATEMENTS, line " row ": no " t " in " file)
        }
    }
}

# A row of the table of entries: the entry and its relation, its function for C and that one's, and
# claims that speak of the relation.
function entry_row(i, home, relation, count) {
    if (quoted(cell[3], second) != 2) { wrong("STATEMENTS, line " i ": an entry has a file and a relation"); return }
    home = "crates/" second[1]
    relation = second[2]
    entry(first[1], relation, home)
    count = quoted(cell[4], second)
    if (count == 3) {
        entry(second[1], second[3], "crates/" second[2])
        if (!has_word(body["crates/" second[2], second[3]], relation)) wrong(second[3] " does not hold " relation)
    } else if (count != 0) wrong("STATEMENTS, line " i ": a function for C has a file and a relation")
    if (quoted(cell[5], second) == 0) wrong("STATEMENTS, line " i ": no claims about " first[1])
    else if (!speaks("crates/" second[1], relation, home)) wrong(second[1] " does not speak of " relation)
}

# A row of the table of claims: a record, and the value that proves it.
function claims_row() {
    quoted(cell[2], second)
    quoted(cell[3], first)
    read_file("crates/" second[1], "docs/STATEMENTS.md")
    claimed["crates/" second[1], second[2]] = 1
    if (!has_word(def["crates/" first[1], first[2]], second[2])) wrong("no proof " first[2] " of " second[2])
}

# A record without parameters in a file of claims or figures is claimed, or part of one that is.
function unclaimed(i, k, j, n, used, text) {
    for (i = 1; i <= specs; i++) {
        if (spec[i] !~ /\/(Claims|Figures|Demand3)\.antt$/) continue
        for (k = 1; k <= closeds[spec[i]]; k++) {
            n = closed[spec[i], k]
            used = (spec[i], n) in claimed
            for (j = 1; j <= specs && !used; j++) {
                text = said[spec[j]]
                gsub("pub record " n " : ", "", text)
                used = has_word(text, n)
            }
            if (!used) wrong(n " of " spec[i] " is not among the claims of docs/STATEMENTS.md")
        }
    }
}

# A function for C, and one whose contract is a relation that is believed, is an entry.
function unlisted(f, i, s, text) {
    for (f in contract) {
        text = contract[f]
        if (f in listed || has_word(text, "requires") || gsub(/ensures/, "ensures", text) != 1) continue
        sub(/^.*ensures *\{ */, "", text)
        sub(/^[A-Za-z]+\./, "", text)
        sub(/ .*/, "", text)
        s = source[f]
        if (text ~ /^[A-Z]/ && (s, text) in from && from[s, text] !~ /\/Inner\.antt$/)
            wrong(f " is not among the entries of docs/STATEMENTS.md")
    }
    for (i = 1; i <= exports; i++)
        if (!(exported[i] in listed)) wrong(exported[i] " is not among the entries of docs/STATEMENTS.md")
}

# One name for one thing. Only `answer_of` stands twice: for one rounded tap's cases, and for every `Result`.
function twice(i, k, n) {
    for (i = 1; i <= readings; i++)
        for (k = 1; k <= tops[reading[i]]; k++) {
            n = top[reading[i], k]
            if (n in owner && n != "answer_of") wrong(n " stands in " owner[n] " and in " reading[i])
            owner[n] = reading[i]
        }
}

END {
    for (i = 1; i <= statements; i++) {
        row = statement[i]
        if (row ~ /^## /) heading = row
        if (row !~ /^\| /) continue
        cells = split(row, cell, "|")
        for (c = 2; c < cells; c++) names_of(i, cell[c])
        # Every row of two tables but their head has an entry, or a file and a record of claims.
        wanted = heading == "## Entries" ? 1 : heading == "## Claims" ? 2 : 0
        if (!wanted) continue
        if (quoted(cell[2], first) != wanted) { if (++heads[heading] > 1) wrong("STATEMENTS, line " i ": no entry or claims") }
        else if (wanted == 1) entry_row(i)
        else claims_row()
    }
    unclaimed()
    unlisted()
    twice()
    for (i = 1; i <= specs; i++) {
        if (spec[i] ~ /\/Inner\.antt$/) { inner += lines[spec[i]]; inners++ }
        else if (!(spec[i] in reached)) wrong(spec[i] " is believed, but no entry and no claim leads to it")
    }
    for (i = 1; i <= readings; i++) {
        total += lines[reading[i]]
        if (list) printf "%5d  %s\n", lines[reading[i]], substr(reading[i], 8)
    }
    if (!faults) printf "believed: %d files, %d lines; inner: %d files, %d lines\n", readings, total, inners, inner
    exit faults ? 1 : 0
}
