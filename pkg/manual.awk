# Makes the manual page of the library from its header, so that each call is described once:
#     awk -v version=VERSION -f pkg/manual.awk include/honigzange.h >honigzange.3
# Of a comment's lines, "name: text" and "HZ_NAME  text" are items of a list, and lines set in by two blanks
# are a list or a table, by four code. The prototype that follows a comment is its heading; a struct stands after its
# comment.

function plain(text) {
    gsub(/\\/, "\\e", text)
    gsub(/-/, "\\-", text)
    if (text ~ /^[.']/)
        text = "\\&" text
    return text
}

function column(text) {
    match(text, /^ */)
    return RLENGTH
}

function put(line) {
    body = body line "\n"
}

function item(name, text) {
    put(".TP\n.B " plain(name) "\n" plain(text))
    listed = 1
}

# Lines from..to are set in: a list of names and texts, or a table or code, which keeps its lines.
function inset(from, to,    i, text, kept) {
    for (i = from; i <= to; i++) {
        text = substr(lines[i], column(lines[i]) + 1)
        if (column(lines[from]) > 2 || text ~ /[^ ]   *[^ ].*[^ ]   *[^ ]/)
            kept = 1
    }
    if (kept)
        put(".PP\n.nf")
    for (i = from; i <= to; i++) {
        text = substr(lines[i], column(lines[i]) + 1)
        if (kept)
            put(plain("  " substr(lines[i], column(lines[from]) + 1)))
        else if (column(lines[i]) == 2 && match(text, /   */))
            item(substr(text, 1, RSTART - 1), substr(text, RSTART + RLENGTH))
        else
            put(plain(text))
    }
    if (kept)
        put(".fi")
}

function paragraphs(    i, j, line) {
    listed = 0
    for (i = 1; i <= count; i++) {
        line = lines[i]
        if (line == "") {
            put(".PP")
            listed = 0
        } else if (match(line, /^(0|HZ_[A-Z_]*)   */)) {
            item(substr(line, 1, index(line, " ") - 1), substr(line, RLENGTH + 1))
        } else if ((listed || i == 1 || lines[i - 1] == "") &&
                   match(line, /^[a-z_]+(, [a-z_]+)*( and [a-z_]+(, [a-z_]+)*)?: /)) {
            item(substr(line, 1, RLENGTH - 2), substr(line, RLENGTH + 1))
        } else if (column(line) >= 2 && !listed) {
            for (j = i; j < count && column(lines[j + 1]) >= 2; j++)
                continue
            inset(i, j)
            i = j
            listed = 0
        } else if (match(line, /^[A-Z][A-Z ]*[A-Z]\. /)) {
            put((i == 1 && topics ? ".SH " : ".SS ") substr(line, 1, RLENGTH - 2) "\n" plain(substr(line, RLENGTH + 1)))
        } else {
            put(plain(substr(line, column(line) + 1)))
        }
    }
    count = 0
}

/^\/\*$/ { comment = 1; count = 0; next }
/^ \*\/$/ { comment = 0; next }
comment { lines[++count] = substr($0, 4); next }
/^#ifndef/ { paragraphs(); topics = 1; put(".SH CONSTANTS"); next }
/^\/\* .* \*\/$/ { remark = substr($0, 4, length($0) - 6); next }
/^#define HZ_MEANING/ { put(".TP\n.B HZ_MEANING(number)"); paragraphs(); next }
/^#define HZ_[A-Z_]* / {
    if (match($0, /\/\*.*\*\//))
        remark = substr($0, RSTART + 3, RLENGTH - 6)
    value = $3
    gsub(/U?INT64_C|[()]/, "", value)
    item($2 " " value, remark)
    next
}
/^typedef struct / || type != "" {
    type = type (type == "" ? "" : "\n") $0
    if ($0 !~ /^}/)
        next
    synopsis = synopsis "\n" plain(type) "\n"
    gap = "\n"
    put(".PP\n" plain(remark) "\n.PP\n.nf\n" plain(type) "\n.fi")
    type = ""
    next
}
/^uint8_t hz_/ || prototype != "" {
    prototype = prototype (prototype == "" ? "" : "\n") $0
    if ($0 !~ /;$/)
        next
    name = prototype
    sub(/^uint8_t /, "", name)
    sub(/\(.*/, "", name)
    synopsis = synopsis gap plain(prototype) "\n"
    gap = ""
    if (names == "")
        put(".SH RECORDS, DAYS AND SECONDS")
    names = names ", " name
    put(".SS " name "\n.nf\n" plain(prototype) "\n.fi\n.PP")
    prototype = ""
    paragraphs()
    next
}
/^$/ && count > 0 { paragraphs() }

END {
    print ".TH HONIGZANGE 3 \"\" \"honigzange " version "\" \"Honigzange\""
    print ".SH NAME\nhonigzange" names " \\- CCSDS 301.0\\-B\\-4 time codes on one exact scale"
    print ".SH SYNOPSIS\n.nf\n#include <honigzange.h>\n"
    print synopsis ".fi\n.PP\nLink with\n.BR \"pkg\\-config \\-\\-cflags \\-\\-libs honigzange\" ."
    printf ".SH DESCRIPTION\n%s", body
    print ".SH SEE ALSO\n.BR zange (1)"
}
