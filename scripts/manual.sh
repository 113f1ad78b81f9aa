#!/bin/sh
# Writes docs/libavcdec.3 to standard output: the manual of the library, made of include/avcdec.h, with its comments and declarations in
# their order, and of the list of faults.
set -eu
export LC_ALL=C
cd "$(dirname "$0")/.."
awk '
    function shown(text) {
        gsub(/\\/, "\\e", text)
        gsub(/-/, "\\-", text)
        if (text ~ /^[.\x27]/) text = "\\&" text
        return text
    }
    # what a comment has gathered; lines further in are code
    function say(    n, lines, i, line, code) {
        n = split(comment, lines, "\n")
        for (i = 1; i <= n; i++) {
            line = lines[i]
            if (line ~ /^    /) {
                if (!code) print ".PP\n.RS 4\n.nf"
                code = 1
                print shown(substr(line, 5))
                continue
            }
            if (code && line == "" && lines[i + 1] ~ /^    /) { print ""; continue }
            if (code) print ".fi\n.RE"
            code = 0
            if (line == "") print ".PP"
            else {
                # what a call answers, and the parts of the first comment, stand apart
                if (line ~ /^(OK|[A-Z][a-z]+\.( |$))/ && i > 1 && lines[i - 1] != "") print ".PP"
                print shown(line)
            }
        }
        if (code) print ".fi\n.RE"
        comment = ""
    }
    function title(name) { print ".SS " shown(name); titled = 1 }
    BEGIN {
        print ".TH LIBAVCDEC 3 \"\" \"avcdec\" \"Library Functions\""
        print ".SH NAME\nlibavcdec \\- a decoder for H.264, Constrained Baseline profile, that is proved right"
        print ".SH SYNOPSIS\n.nf\n.B #include <avcdec.h>\n.PP\n.B cc \\&.. $(pkg\\-config \\-\\-cflags \\-\\-libs avcdec)\n.fi\n.SH DESCRIPTION"
        first = 1
    }
    # a comment of its own lines
    /^\/\*/ {
        comment = $0
        sub(/^\/\* ?/, "", comment)
        in_comment = comment !~ /\*\//
        sub(/ *\*\/.*/, "", comment)
        if (!in_comment && first) { first = 0 }
        next
    }
    in_comment {
        line = $0
        in_comment = line !~ /\*\//
        sub(/^ \* ?/, "", line)
        sub(/ ?\*\/.*/, "", line)
        if (line != "/" && (in_comment || line != "")) comment = comment "\n" line
        if (!in_comment && first) {
            first = 0
            sub(/^avcdec.h: [^\n]*\n/, "", comment)
            say()
            print ".SH TYPES AND CALLS"
        }
        next
    }
    /^#define AVCDEC_(DECODER|NAME)/ || /^#define AVCDEC_VERSION_MAJOR/ { title($2); if (comment != "") kept = comment; comment = kept; kept = ""; print ".nf\n" shown($0) "\n.fi"; next }
    /^#/ || /^extern "C"/ || /^}$/ && !in_body || /^$/ && !in_body { next }
    # a declaration of several lines, up to its end
    !in_body && /^(typedef|enum|static|[a-z_0-9]+ \**avcdec_|void|uint|avcdec_)/ {
        name = $0
        if (/^enum/) name = "enum"
        else if (/^typedef/ && match($0, /(struct )?avcdec_[a-z_0-9]+/)) name = substr($0, RSTART, RLENGTH)
        else if (match($0, /avcdec_[a-z_0-9]+\(/)) name = substr($0, RSTART, RLENGTH - 1)
        if (name == "enum" && comment == "") { } else title(name)
        print ".nf"
        inline = /^static inline/
        line = $0
        if (inline) sub(/ \{$/, "", line)
        print shown(line)
        in_body = inline || !/;$/ && /\{$/
        if (/^(typedef|enum).*\{.*\};?$/ || /;$/) in_body = 0
        if (!in_body) { print ".fi"; say() }
        next
    }
    in_body {
        if (!inline) print shown($0)
        if (/^}/) { in_body = 0; print ".fi"; say() }
        next
    }
' include/avcdec.h
echo .SH FAULTS
scripts/faults.sh | awk -F '\t' '
    function shown(text) { gsub(/\\/, "\\e", text); gsub(/-/, "\\-", text); return text }
    { print ".TP\n.B " $1 " " $2 "\n" toupper(substr($3, 1, 1)) shown(substr($3, 2)) ($4 == "" ? "." : " (" shown($4) ").") }
'
printf '.SH SEE ALSO\n.BR avcdec (1)\n'
