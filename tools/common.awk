# What the tools share: reads the shell's answers to the questions of tools/machines.sh, and writes keys and sizes for people.
# File numbers and counters stay text: they have up to 20 digits, more than awk's numbers hold.

# ---- the answers
# [left] and [right] stand before the answers on a machine, [diff] before the entries in which the two differ, [end] after all.

/^\[/ {
    part = substr($0, 2, length($0) - 2)
    place = 0
    next
}
part == "left" || part == "right" { take_answer(part, ++place, $0) }
part == "diff" && $0 != "same" { take_entries($0) }

# Takes an answer on a machine, by its place: load, counters, ptrs, score, then files and bytes of each level.
function take_answer(side, at, line,    level) {
    if (at == 2) take_counters(side, line)
    else if (at == 3) take_pointers(side, line)
    else if (at == 4) take_score(side, line)
    else if (at > 4) {
        level = int((at - 5) / 2)
        if (at % 2) take_files(side, level, line)
        else take_bytes(side, level, line)
    }
}

# Takes `next=. manifest=. seq=. log=. prev=.`
function take_counters(side, line,    words, n, i, pair) {
    n = split(line, words, " ")
    for (i = 1; i <= n; i++) {
        split(words[i], pair, "=")
        counter_name[i - 1] = pair[1]
        counter[side, pair[1]] = pair[2]
    }
    counters = n
}

# Takes a key or - for each level.
function take_pointers(side, line,    words, n, i) {
    n = split(line, words, " ")
    for (i = 1; i <= n; i++) pointer[side, i - 1] = words[i]
    levels = n
}

# Takes `level=. bits=. needs=.`
function take_score(side, line,    words, pair) {
    split(line, words, " ")
    split(words[1], pair, "=")
    fullest[side] = pair[2]
    split(words[3], pair, "=")
    is_due[side] = pair[2]
}

# Takes the files of a level, `number,size,smallest,largest,seeks` each, or - for none.
function take_files(side, level, line,    words, n, i, f) {
    n = (line == "-") ? 0 : split(line, words, " ")
    count[side, level] = n
    all_files[side] += n
    for (i = 1; i <= n; i++) {
        split(words[i], f, ",")
        number[side, level, i] = f[1]
        size[side, level, i] = f[2]
        smallest[side, level, i] = f[3]
        largest[side, level, i] = f[4]
        index_of[side, level, f[1]] = i
    }
}

# Takes `COUNT BYTES` of a level.
function take_bytes(side, level, line,    words) {
    split(line, words, " ")
    bytes[side, level] = words[2]
    all_bytes[side] += words[2]
}

# Takes the entries in which two machines differ, and marks what they name.
function take_entries(line,    words, n, i, e) {
    n = split(line, words, " ")
    for (i = 1; i <= n; i++) {
        entry[++entries] = words[i]
        split(words[i], e, ",")
        if (e[1] == "<") mark("left", e[2], e[3], "only left")
        else if (e[1] == ">") mark("right", e[2], e[3], "only right")
        else if (e[1] == "~") {
            mark("left", e[2], e[3], "changed")
            mark("right", e[2], e[3], "changed")
        } else if (e[1] == "p") pointer_differs[e[2]] = 1
        else if (e[1] == "c") counter_differs[e[2]] = 1
    }
}

# Marks a file that differs. home: the level at which one side alone has the number.
function mark(side, level, n, kind) {
    marked[side, level, n] = kind
    if (kind != "changed") home[side, n] = level
}

# The level at which the other machine has a file that this one alone has here, or nothing.
function elsewhere(side, level, n,    other) {
    other = (side == "left") ? "right" : "left"
    if (marked[side, level, n] == "changed" || !((other, n) in home)) return ""
    return home[other, n]
}

# ---- keys
# The byte that two hex digits say.
function byte_at(hex, i) {
    return (index(DIGITS, substr(hex, i, 1)) - 1) * 16 + index(DIGITS, substr(hex, i + 1, 1)) - 1
}

# The user key of an internal key, in hex: all but the 8 trailer bytes.
function user(hex) {
    return substr(hex, 1, length(hex) - 16)
}

# The sequence of an internal key, in decimal: 7 little-endian bytes after the type. In two parts, since it may be above 2^53.
function sequence(hex,    i, high, low, carry) {
    high = low = 0
    for (i = length(hex) - 1; i > length(hex) - 14; i -= 2) {
        low = low * 256 + byte_at(hex, i)
        carry = int(low / 100000000)
        low -= carry * 100000000
        high = high * 256 + carry
    }
    return high ? sprintf("%.0f%08.0f", high, low) : sprintf("%.0f", low)
}

# A user key as text where all of it prints, in quotes where it could be misread; else 0x and its hex digits.
function user_text(hex,    i, b, c, text, quoted) {
    for (i = 1; i < length(hex); i += 2) {
        b = byte_at(hex, i)
        if (b < 32 || b > 126) return "0x" hex
        c = substr(PRINTING, b - 31, 1)
        if (c == " " || c == "\"" || c == "\\") quoted = 1
        text = text ((c == "\"" || c == "\\") ? "\\" : "") c
    }
    return (quoted || text ~ /^0x/) ? "\"" text "\"" : text
}

# An internal key: user key, sequence, and the word deletion where it is one. No key is none.
function key_text(hex) {
    if (hex == "-") return "none"
    return user_text(user(hex)) "@" sequence(hex) (byte_at(hex, length(hex) - 15) ? "" : " deletion")
}

# ---- sizes
# A number of bytes in the unit that suits it.
function human(n,    unit) {
    n += 0
    for (unit = 1; n >= 1023.95 && unit < 6; unit++) n /= 1024
    return (unit == 1) ? n " B" : sprintf("%.1f %s", n, substr("KiBMiBGiBTiBPiB", unit * 3 - 5, 3))
}

# A number of bytes with its human figure in brackets; small ones need none. word: what stands between, if anything.
function size_text(n, word) {
    return sprintf("%.0f%s", n, word) (n < 1024 ? "" : " (" human(n) ")")
}

# A count with its word.
function counted(n, word) {
    return n " " word (n == 1 ? "" : "s")
}

# How many files level 0 holds, or bytes another level, before it is due; 0 for the last level, which never is.
function limit(level,    most) {
    if (level == 0) return 4
    if (level == levels - 1) return 0
    for (most = 10485760; level > 1; level--) most *= 10
    return most
}

# How full a level is, in per cent, cut to one decimal: 100.0 and more is due. Nothing where there is no limit.
function full_text(side, level,    held) {
    if (!limit(level)) return ""
    held = (level == 0) ? count[side, level] : bytes[side, level]
    return sprintf("%.1f %%", int(held * 1000 / limit(level)) / 10)
}

BEGIN {
    DIGITS = "0123456789abcdef"
    PRINTING = " !\"#$%&'()*+,-./0123456789:;<=>?@ABCDEFGHIJKLMNOPQRSTUVWXYZ[\\]^_`abcdefghijklmnopqrstuvwxyz{|}~"
}
