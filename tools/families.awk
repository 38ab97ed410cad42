# Reads crates.txt and draws its families: see tools/families. A family's name has a * before it here,
# since a crate may have the same name.

function wrong(text) {
    print "families: crates.txt, line " FNR ": " text > "/dev/stderr"
    faults++
}

# The first rests on the second, and on all below that: two families, or two crates of one family.
function rests(upper, lower, i, n, list) {
    direct[upper, lower] = 1
    n = split(below[lower], list)
    for (i = 1; i <= n; i++) further[upper, list[i]] = 1
    below[upper] = below[upper] " " lower " " below[lower]
    if (level[lower] >= level[upper]) level[upper] = level[lower] + 1
}

# What something rests on of those listed, less what it reaches through others.
function nearest(upper, those, i, n, list, text) {
    n = split(those, list)
    for (i = 1; i <= n; i++)
        if ((upper, list[i]) in direct && !((upper, list[i]) in further)) text = text ", " list[i]
    gsub(/\*/, "", text)
    return substr(text, 3)
}

/^## / {
    if ($0 !~ /^## [A-Za-z]+: ./) wrong("a heading is '## NAME: what it holds'")
    family = "*" substr($2, 1, length($2) - 1)
    if (family in members) wrong(substr(family, 2) " is a family twice")
    members[family] = ""
    families = families " " family
}

{ sub(/#.*/, ""); sub(/ staticlib:/, ":") }

/:/ {
    crate = substr($1, 1, length($1) - 1)
    if (!family) wrong(crate " stands in no family")
    if (crate in missing) wrong(crate " stands below " missing[crate] ", which rests on it")
    home[crate] = family
    members[family] = members[family] " " crate
    for (i = 2; i <= NF; i++) {
        if (!($i in home)) missing[$i] = crate
        else if (home[$i] == family) rests(crate, $i)
        else rests(family, home[$i])
    }
}

# Families that rest on none of each other stand side by side, the highest layer first.
function layers(i, n, list, l, c, highest, cells, name, base, width, edge, inner, top, bottom) {
    n = split(families, list)
    for (i = 1; i <= n; i++) {
        l = level[list[i]] + 0
        if (l > highest) highest = l
        c = ++cells[l]
        name[l, c] = substr(list[i], 2)
        base[l, c] = l ? "on " nearest(list[i], families) : "on the kit alone"
        if (length(base[l, c]) > width[c]) width[c] = length(base[l, c])
    }
    for (c = 1; c in width; c++) edge = edge sprintf("+%" (width[c] + 2) "s", "")
    gsub(/ /, "-", edge)
    inner = length(edge)
    for (l = highest; l >= 0; l--) {
        top = bottom = ""
        for (c = 1; c <= cells[l]; c++) {
            top = top sprintf("| %-" width[c] "s ", name[l, c])
            bottom = bottom sprintf("| %-" width[c] "s ", base[l, c])
        }
        printf "%s+\n%-" inner "s|\n%-" inner "s|\n", edge, top, bottom
    }
    print edge "+"
}

# Every crate, with those of its family that it rests on.
function all_crates(f, n, list, i, m, crates, under, text) {
    n = split(families, list)
    print ""
    for (f = 1; f <= n; f++) {
        m = split(members[list[f]], crates)
        text = sprintf("%-9s", substr(list[f], 2))
        for (i = 1; i <= m; i++) {
            under = nearest(crates[i], members[list[f]])
            under = " " crates[i] (under ? " (" under ")" : "") (i < m ? "," : "")
            if (length(text under) > 100) { print text; text = sprintf("%9s", "") }
            text = text under
        }
        print text
    }
}

END {
    if (!faults) layers()
    if (!faults && whole) all_crates()
    exit faults > 0
}
