# Shows what the program `explain` found in a sheet. First come its lines, then `bytes`, then the sheet's bytes as numbers. NAME is the file's name in the environment,
# form is text or json, colour is 1 on a terminal, words is the file that says what each number of a refusal means.

BEGIN {
    FS = "\t"
    name = ENVIRON["NAME"]
    for (i = 1; i < 256; i++) value[sprintf("%c", i)] = i
    split("limit byte-order-mark indented mistake text-behind never-closed open-quote blank-line not-indented too-far-left not-entries", kinds, " ")
    while ((getline row < words) > 0) { split(row, part, "\t"); means[part[1]] = part[2] }
    bold = colour ? "\033[1m" : ""
    red = colour ? "\033[31m" : ""
    plain = colour ? "\033[0m" : ""
    line = 1
}

!inside && $1 == "bytes" { inside = 1; FS = " "; next }

# The whole sheet is refused.
!inside && $1 == "refused" {
    what = "refused " $2 ": " means[$2]
    mend = $2 == 2 ? "save the file as UTF-8; `grep -naxv '.*' FILE`, in a UTF-8 locale, shows each line that has such a byte" : "part the sheet in two"
    if (form == "json") printf "{\"file\":%s,\"kind\":\"refused\",\"number\":%d,\"what\":%s,\"mend\":%s}\n", quoted(name), $2, quoted(what), quoted(mend)
    else printf "%s%s: %s%s\n    %s\n", bold, name, what, plain, mend
    next
}

# kind, the line that looks like a block, the line of the mistake, its place, its number
!inside && $1 == "found" {
    n++
    kind[n] = $2; block[n] = $3; at[n] = $4; place[n] = $5; number[n] = $6
    if (!($4 in wanted)) wanted[$4] = n
    if ($4 > last) last = $4
    next
}

inside {
    k = split($0, byte, " ")
    for (i = 1; i <= k; i++) {
        b = byte[i]
        if (line in wanted) { if (!(line in size)) { start[line] = offset; size[line] = 0 } if (b != 10) raw[line, size[line]++] = b }
        offset++
        if (b == 10) line++
    }
}

END { for (f = 1; f <= n; f++) show(f) }

# The character at i of a line; `more` is then how many bytes behind the first go on with it.
function code(l, i,   b, c, j) {
    b = raw[l, i] + 0; c = b; more = 0
    if (b >= 240) { c = b - 240; more = 3 } else if (b >= 224) { c = b - 224; more = 2 } else if (b >= 192) { c = b - 192; more = 1 }
    for (j = 1; j <= more; j++) c = c * 64 + raw[l, i + j] - 128
    return c
}

# A character that looks like a space and is none; and one that is not seen, or turns the writing round.
function is_other_space(c) { return c == 160 || c == 5760 || (c >= 8192 && c <= 8202) || c == 8239 || c == 8287 || c == 12288 }
function is_unseen(c) { return c == 173 || c == 1564 || c == 6158 || (c >= 8203 && c <= 8207) || (c >= 8232 && c <= 8238) || (c >= 8288 && c <= 8303) || c == 65279 }

# How many columns of a terminal a character takes: none that is put onto the one before it, two the wide ones of East Asia and pictures.
function width(c) {
    if (c < 768) return 1
    if (c <= 879 || (c >= 8400 && c <= 8447) || (c >= 65024 && c <= 65039) || (c >= 65056 && c <= 65071)) return 0
    if ((c >= 4352 && c <= 4447) || (c >= 11904 && c <= 12350) || (c >= 12353 && c <= 19903) || (c >= 19968 && c <= 42191) || (c >= 44032 && c <= 55203)) return 2
    if ((c >= 63744 && c <= 64255) || (c >= 65072 && c <= 65135) || (c >= 65281 && c <= 65376) || (c >= 65504 && c <= 65510)) return 2
    return (c >= 127744 && c <= 128591) || (c >= 128640 && c <= 128767) || (c >= 129280 && c <= 129791) || (c >= 131072 && c <= 262141) ? 2 : 1
}

# The bytes of a line from `from` up to `to` as they are shown: control characters, and those that one can't see for what they are, as escapes. In `chars` is then
# how many characters these are, in `columns` how many columns they take.
function text(l, from, to,   out, i, c, j, s) {
    out = ""; chars = 0; columns = 0
    for (i = from; i < to; i += more + 1) {
        c = code(l, i); s = ""
        if (c == 9) s = "\\t"
        else if (c < 32 || (c >= 127 && c < 160)) s = sprintf("\\x%02x", c)
        else if (is_other_space(c) || is_unseen(c)) s = sprintf("\\u%04x", c)
        columns += s == "" ? width(c) : length(s)
        if (s == "") for (j = 0; j <= more; j++) s = s sprintf("%c", raw[l, i + j] + 0)
        chars++; out = out s
    }
    return out
}

# How many bytes of s, from i on, go on with a character of more than one byte; `whole` is then 1 if they are one, else no character begins so.
function reach(s, i,   b, need, low, high, d, k) {
    b = value[substr(s, i, 1)]
    need = b < 194 || b > 244 ? 1 : b < 224 ? 2 : b < 240 ? 3 : 4
    low = b == 224 ? 160 : b == 240 ? 144 : 128
    high = b == 237 ? 159 : b == 244 ? 143 : 191
    for (k = 1; k < need; k++) {
        d = value[substr(s, i + k, 1)] + 0
        if (d < low || d > high) break
        low = 128; high = 191
    }
    whole = need > 1 && k == need
    return k
}

# A string of JSON: control characters are escaped, and bytes that aren't UTF-8, as a file's name may have them, stand as U+FFFD.
function quoted(s,   out, i, c, b, k) {
    out = "\""
    for (i = 1; i <= length(s); i += k) {
        c = substr(s, i, 1); b = value[c]; k = 1
        if (b == 34 || b == 92) out = out "\\" c
        else if (b == 10) out = out "\\n"
        else if (b == 9) out = out "\\t"
        else if (b < 32 || b == 127) out = out sprintf("\\u%04x", b)
        else if (b < 128) out = out c
        else {
            k = reach(s, i); c = substr(s, i, k)
            out = out (!whole ? "\\ufffd" : b == 194 && value[substr(c, 2)] < 160 ? sprintf("\\u%04x", value[substr(c, 2)]) : c)
        }
    }
    return out "\""
}

function show(f,   l, p, from, to, before, behind, column, caret) {
    l = at[f]; p = place[f] - start[l]
    if (!(l in size)) { size[l] = 0; start[l] = offset; p = 0 }
    # The CR of a line's end isn't shown.
    if (!(l in cut)) { cut[l] = 1; if (size[l] > 0 && raw[l, size[l] - 1] == 13) size[l]-- }
    say_why(f, l, p)
    text(l, 0, p); column = chars + 1
    if (form == "json") {
        printf "{\"file\":%s,\"line\":%d,\"column\":%d,\"byte\":%d,\"block\":%d,\"kind\":\"%s\",\"number\":%d,\"what\":%s,\"mend\":%s}\n", quoted(name), l, column, place[f], block[f], kinds[kind[f]], number[f], quoted(what), quoted(mend)
        return
    }
    # Of a long line only what stands around the place, cut between characters.
    from = 0; to = size[l]
    if (p > 100) { from = p - 60; while (from < p && raw[l, from] >= 128 && raw[l, from] < 192) from++ }
    if (to - p > 100) { to = p + 60; while (to < size[l] && raw[l, to] >= 128 && raw[l, to] < 192) to++ }
    before = (from > 0 ? "..." : "") text(l, from, p); caret = columns + (from > 0 ? 3 : 0)
    behind = text(l, p, to) (to < size[l] ? "..." : "")
    printf "%s%s:%d:%d: %s%s\n    %s\n    %*s%s^%s\n    %s\n", bold, name, l, column, what, plain, before behind, caret, "", red, plain, mend
}

# What is wrong, and how to mend it, in words.
function say_why(f, l, p,   k, b) {
    k = kind[f]; b = p < size[l] ? raw[l, p] + 0 : 0
    if (k == 1) {
        what = (form == "json" ? "" : "note: ") "refused " number[f] ": " means[number[f]]
        mend = number[f] == 10 ? "shorten a value, or part the block in two" : "take some away, or part the block in two on lines of their own"
    } else if (k == 2) {
        what = "a byte order mark stands before the brace, so this is no block"
        mend = "save the file without it: sed -i '" l "s/\\xef\\xbb\\xbf//' FILE"
    } else if (k == 3) {
        what = (b == 9 ? "a tab stands" : number[f] == 1 ? "a space stands" : "blanks stand") " before the brace, so this is no block"
        mend = "a block begins at the very front of its line: take away what stands before its brace"
    } else if (k == 4) say_mistake(f, l, p, b)
    else if (k == 5) {
        what = b == 125 ? "a brace too many" : "text stands behind the block, so this is no block"
        mend = b == 125 ? "take it away" : "give the text a line of its own; blocks of one line stand back to back, without a space"
    } else if (k == 6) {
        what = "the block is never closed"
        mend = "add `}`; one behind a backslash, or in quotes, doesn't count"
    } else if (k == 7) {
        what = "this quote is still open where the line ends"
        mend = b == 39 ? "close it on this line; a value that has ' in it stands in double quotes" : "close it on this line: a value stands on one line"
    } else if (k == 8) {
        what = "a blank line stands in the block of line " block[f]
        mend = "take it away, or close the block before it"
    } else if (k == 9) {
        what = "the block of line " block[f] " isn't closed before this line, which isn't indented as a part of it"
        mend = "close the block, or indent this line by " number[f] + 1 " or more"
    } else if (k == 10) {
        what = "this line isn't indented far enough to belong to the block of line " block[f]
        mend = "indent it by " number[f] + 1 " or more: beyond the last brace that opened"
    } else {
        say_line(f, l, p, b)
        what = "this line of the block of line " block[f] " isn't whole entries" what
    }
}

# What is wrong with a later line that isn't whole entries, at the place where it stops being that: text behind a brace that closes, a quote that is still open, or an
# entry's mistake.
function say_line(f, l, p, b,   i, q) {
    if (p > 0 && p < size[l] && raw[l, p - 1] == 125) {
        what = ": text stands behind its brace"
        mend = "give the text a line of its own; blocks stand back to back, without a space"
        return
    }
    q = 0
    for (i = 0; i < size[l]; i++) {
        if (raw[l, i] == 92) i++
        else if (raw[l, i] == q) q = 0
        else if (!q && (raw[l, i] == 34 || raw[l, i] == 39)) q = raw[l, i] + 0
    }
    if (q && p >= size[l]) { what = ": a quote is still open where it ends"; mend = "close it on this line: a value stands on one line"; return }
    say_mistake(f, l, p, b)
    what = ": " what
}

# The payload went wrong at p, where b stands: in words of what stands around it.
function say_mistake(f, l, p, b,   a, s, t, i, valued) {
    a = p > 0 ? raw[l, p - 1] + 0 : 0
    # The entry's first byte, and whether a `=` of it stands before the place.
    for (s = p; s > 0 && raw[l, s - 1] != 32 && raw[l, s - 1] != 9 && raw[l, s - 1] != 123; s--) if (raw[l, s - 1] == 61) valued = 1
    t = raw[l, s] + 0
    # The last byte before the place that is no blank; -1 where the line has none.
    for (i = p - 1; i >= 0 && (raw[l, i] == 32 || raw[l, i] == 9); i--) ;
    what = "this can't stand here"
    mend = "entries are #id, .class, key=value, a bare name or :language, parted by spaces"
    if (b == 125 && (i >= 0 ? raw[l, i] == 123 : l > block[f])) { what = "there is nothing between the braces"; mend = "write an entry, or take the block away" }
    else if (a == 61 && b == 32) { what = "a space behind `=`"; mend = "key=value is written without spaces" }
    else if (a == 61 && (b == 125 || p >= size[l])) { what = "there is no value behind `=`"; mend = "write one, or key=\"\", or the bare name" }
    else if (b == 61 && a == 32 && raw[l, i] != 123) { what = "a space before `=`"; mend = "key=value is written without spaces" }
    else if (b == 61) { what = "this can't be a key"; mend = "a key begins with a letter or _" }
    else if (b == 44) { what = "a comma"; mend = "spaces alone part entries" }
    else if (b == 9) { what = "a tab"; mend = "spaces alone part entries" }
    else if (b >= 128 && is_other_space(code(l, p))) { what = sprintf("this is no ordinary space, but the character U+%04X", code(l, p)); mend = "write an ordinary one: spaces alone part entries" }
    else if (a == 34 || a == 39) { what = "there is no space behind the closing quote"; mend = "a space parts it from the next entry" }
    else if (t == 58) { what = "this is no language tag"; mend = "its parts have one to eight letters or digits, with a hyphen between them, as :de-DE" }
    else if (valued && (b == 92 || b == 124 || b == 34 || b == 39)) { what = "this can't stand in a value without quotes"; mend = "put the value in quotes" (b == 92 ? ", with two backslashes for one" : "") }
    else if (s == p && (b == 34 || b == 39)) { what = "a quote can't begin an entry"; mend = "a value in quotes stands behind its key and `=`" }
    else if (s == p && a == 123 && b == 37) { what = "this reads like a comment, so this is no block"; mend = "leave it if it is one: the report passes it over" }
    else if (a != 46 && a != 35 && (b == 46 || b == 35)) { what = "an entry begins within another"; mend = "a space parts entries" }
    else if (b >= 128) { what = "a name has no such letter"; mend = "its letters are a to z and A to Z, with digits, _ and -; other text stands in a value in quotes" }
    else if (t == 95 && (b == 125 || b == 32 || p >= size[l])) { what = "a bare name begins with a letter"; mend = "write another name, or a value behind it" }
    else if (s == p || a == 46 || a == 35) { what = "an entry can't begin so"; mend = "a class or id begins with a letter, a digit or _, a key with a letter or _, a bare name with a letter" }
}
