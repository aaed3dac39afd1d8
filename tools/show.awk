# Prints a machine: its counters, then each level with its files. After common.awk; NAME is the snapshot's name.

# Keeps the greatest width that a column needs.
function widen(column, text) {
    if (length(text) > width[column]) width[column] = length(text)
}

# Measures the columns over all levels, so that they stand below each other.
function measure(    level, i) {
    widen("number", "file")
    widen("size", "bytes")
    widen("smallest", "smallest key")
    for (level = 0; level < levels; level++)
        for (i = 1; i <= count["left", level]; i++) {
            widen("number", number["left", level, i])
            widen("size", size["left", level, i])
            widen("smallest", key_text(smallest["left", level, i]))
        }
}

# Prints one line of the table of files.
function row(n, bytes, figure, from, to) {
    printf "  %" width["number"] "s  %" width["size"] "s  %10s  %-" width["smallest"] "s  %s\n", n, bytes, figure, from, to
}

# What a counter counts.
function meaning(name) {
    if (name == "next") return "next file number"
    if (name == "manifest") return "manifest number"
    if (name == "seq") return "last sequence"
    if (name == "log") return "log number"
    if (name == "prev") return "previous log number"
    return ""
}

# Prints the counters with what they mean.
function show_counters(    i, name) {
    for (i = 0; i < counters; i++) widen("counter", counter["left", counter_name[i]])
    for (i = 0; i < counters; i++) {
        name = counter_name[i]
        printf "  %-8s  %" width["counter"] "s  %s\n", name, counter["left", name], meaning(name)
    }
}

# Says what is due, as the score has it.
function due_text(    level) {
    level = fullest["left"]
    if (is_due["left"]) return "compaction is due at level " level ", " full_text("left", level) " full"
    if (!all_files["left"]) return "no compaction is due"
    return "no compaction is due; the fullest is level " level ", " full_text("left", level)
}

# A level: how full it is, its files and bytes, and of how many.
function level_text(level,    text) {
    text = sprintf("level %d  %13s: %s", level, limit(level) ? full_text("left", level) " full" : "no limit", counted(count["left", level], "file"))
    if (level == 0) text = text " of " limit(0)
    text = text ", " size_text(bytes["left", level], " bytes")
    return (level > 0 && limit(level)) ? text " of " size_text(limit(level)) : text
}

# Whether a level has more to show than its first line.
function has_more(level) {
    return count["left", level] > 0 || pointer["left", level] != "-"
}

# Prints a level.
function show_level(level,    i) {
    print level_text(level)
    if (pointer["left", level] != "-") print "  pointer " key_text(pointer["left", level])
    if (!count["left", level]) return
    row("file", "bytes", "", "smallest key", "largest key")
    for (i = 1; i <= count["left", level]; i++)
        row(number["left", level, i], size["left", level, i], human(size["left", level, i]),
            key_text(smallest["left", level, i]), key_text(largest["left", level, i]))
}

END {
    measure()
    print ENVIRON["NAME"] ": " counted(all_files["left"], "file") ", " size_text(all_bytes["left"], " bytes")
    print due_text()
    print ""
    print "counters"
    show_counters()
    for (level = 0; level < levels; level++) {
        if (level == 0 || has_more(level) || has_more(level - 1)) print ""
        show_level(level)
    }
}
