# Prints what differs between two machines, a line for each entry, then how many there are. After common.awk.
# The shell's entries say what differs and hold the right's contents; the left's are looked up in its files, pointers and counters.

# The contents of a file.
function contents(bytes, from, to) {
    return size_text(bytes, " bytes") ", " key_text(from) " .. " key_text(to)
}

# Adds a part to what changed, the left's value and the right's, where they are not the same text.
function add_change(text, name, left, right) {
    if (left "" == right "") return text
    return text (text == "" ? "" : "; ") name " " left " -> " right
}

# What changed in a file that both have.
function change_text(level, n, bytes, from, to,    i, text) {
    i = index_of["left", level, n]
    text = add_change("", "size", size_text(size["left", level, i]), size_text(bytes))
    text = add_change(text, "smallest", key_text(smallest["left", level, i]), key_text(from))
    return add_change(text, "largest", key_text(largest["left", level, i]), key_text(to))
}

# Where the other machine has the file, if it has it at another level.
function moved_text(side, level, n,    there) {
    there = elsewhere(side, level, n)
    if (there == "") return ""
    if (side == "left") moved++
    return "; " (side == "left" ? "right" : "left") " has it at level " there
}

# Sets the columns of an entry's line: where, what, how, and the rest.
function read_entry(i,    e, at) {
    split(entry[i], e, ",")
    where[i] = "level " e[2]
    what[i] = "file " e[3]
    how[i] = "changed"
    if (e[1] == "<") {
        how[i] = "only left"
        at = index_of["left", e[2], e[3]]
        rest[i] = contents(size["left", e[2], at], smallest["left", e[2], at], largest["left", e[2], at]) moved_text("left", e[2], e[3])
    } else if (e[1] == ">") {
        how[i] = "only right"
        rest[i] = contents(e[4], e[5], e[6]) moved_text("right", e[2], e[3])
    } else if (e[1] == "~") {
        rest[i] = change_text(e[2], e[3], e[4], e[5], e[6])
    } else if (e[1] == "p") {
        what[i] = "pointer"
        rest[i] = key_text(pointer["left", e[2]]) " -> " key_text(e[3])
    } else {
        where[i] = "counter"
        what[i] = e[2]
        rest[i] = counter["left", e[2]] " -> " e[3]
    }
    total[e[1] == "~" ? "changed" : e[1]]++
}

# The last line: how many of each kind.
function summary() {
    return "files: " (total["<"] + 0) " only left, " (total[">"] + 0) " only right" (moved ? " (" moved " at another level)" : "") ", " \
        (total["changed"] + 0) " changed; pointers: " (total["p"] + 0) "; counters: " (total["c"] + 0)
}

END {
    if (!entries) {
        print "same"
        exit
    }
    for (i = 1; i <= entries; i++) {
        read_entry(i)
        if (length(what[i]) > wide) wide = length(what[i])
    }
    for (i = 1; i <= entries; i++) printf "%-7s  %-" wide "s  %-10s  %s\n", where[i], what[i], how[i], rest[i]
    print summary()
}
