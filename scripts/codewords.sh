#!/bin/sh
# Writes docs/CODEWORDS.md to standard output: the tables of codewords of avc_vlc's definitions (specs/Tables), printed as the standard
# prints them, so that they can be compared with it by eye.
set -eu
export LC_ALL=C
cd "$(dirname "$0")/.."
cat <<'TXT'
# The tables of codewords, printed

Made by `scripts/codewords.sh` from crates/avc_vlc/specs/Tables.antt, to be compared by eye with Tables 9-5, 9-7 to 9-10 and 9-4 of Rec.
ITU-T H.264; `test.sh` fails where it is out of date. An entry (n, v) of the definitions is the codeword of n bits whose number is v.

TXT
awk '
    # the codeword of n bits with this number, four bits and four bits as the standard has it
    function word(n, v,    bits, i, text) {
        bits = ""
        for (i = 0; i < n; i++) {
            bits = (v % 2) bits
            v = int(v / 2)
        }
        text = ""
        for (i = 1; i <= n; i += 4) text = text (i > 1 ? " " : "") substr(bits, i, 4)
        return text
    }
    # a printed table: its title, the title of its first column, and columns name(1), .. of the rows from `from` on
    function rows_of(name, title, first, left, right,    r, k, line, most) {
        print "## " title "\n"
        line = "| " first " |"
        for (k = left; k <= right; k++) line = line " " head(name, k) " |"
        print line
        gsub(/[^|]+/, "---", line)
        print line
        most = 0
        for (k = left; k <= right; k++) if (width[name, k] > most) most = width[name, k]
        for (r = 1; r <= most; r++) {
            line = "| " (r - 1) " |"
            for (k = left; k <= right; k++) line = line " " (r <= width[name, k] ? word(bits_of[name, k, r], number_of[name, k, r]) : "") " |"
            print line
        }
        print ""
    }
    function head(name, k) { return name == "run_before_codes" && k == 7 ? "above 6" : k }
    /^[a-z_0-9]+ =/ { name = $1; row = 0; sub(/^[^=]*= ?/, "") }
    /^(--|abbrev|use)/ { next }
    name ~ /^cbp/ {
        n = 0
        text = $0
        while (match(text, /[0-9]+/)) {
            pattern[name, n++] = substr(text, RSTART, RLENGTH)
            text = substr(text, RSTART + RLENGTH)
        }
        if (n > patterns) patterns = n
        next
    }
    /\([0-9]+, [0-9]+\)/ {
        row++
        text = $0
        while (match(text, /\([0-9]+, [0-9]+\)/)) {
            entry = substr(text, RSTART + 1, RLENGTH - 2)
            text = substr(text, RSTART + RLENGTH)
            split(entry, e, ", ")
            width[name, row]++
            bits_of[name, row, width[name, row]] = e[1]
            number_of[name, row, width[name, row]] = e[2]
        }
    }
    END {
        print "## coeff_token (Table 9-5)\n"
        print "The column of 8 <= nC is `tokens_8` of specs/Reading: six bits, (TotalCoeff - 1) * 4 + TrailingOnes, and 3 for no coefficient.\n"
        print "| TrailingOnes | TotalCoeff | 0 <= nC < 2 | 2 <= nC < 4 | 4 <= nC < 8 | 8 <= nC | nC = -1 |"
        print "|---|---|---|---|---|---|---|"
        for (total = 0; total <= 16; total++)
            for (ones = 0; ones <= total && ones <= 3; ones++) {
                line = "| " ones " | " total " |"
                for (k = 1; k <= 5; k++) {
                    column = k == 1 ? "coeff_token_0" : k == 2 ? "coeff_token_2" : k == 3 ? "coeff_token_4" : "coeff_token_chroma_dc"
                    if (k == 4) text = word(6, total ? (total - 1) * 4 + ones : 3)
                    else text = (ones < width[column, total + 1]) ? word(bits_of[column, total + 1, ones + 1], number_of[column, total + 1, ones + 1]) : ""
                    line = line " " text " |"
                }
                print line
            }
        print ""
        rows_of("total_zeros_4x4", "total_zeros for 4x4 blocks with tzVlcIndex 1 to 7 (Table 9-7)", "total_zeros", 1, 7)
        rows_of("total_zeros_4x4", "total_zeros for 4x4 blocks with tzVlcIndex 8 to 15 (Table 9-8)", "total_zeros", 8, 15)
        rows_of("total_zeros_chroma_dc", "total_zeros for chroma DC 2x2 blocks (Table 9-9 a)", "total_zeros", 1, 3)
        rows_of("run_before_codes", "run_before by zerosLeft (Table 9-10)", "run_before", 1, 7)
        print "## coded_block_pattern by codeNum, ChromaArrayType 1 (Table 9-4 a)\n"
        print "| codeNum | Intra_4x4 | Inter |"
        print "|---|---|---|"
        for (n = 0; n < patterns; n++) print "| " n " | " pattern["cbp_intra", n] " | " pattern["cbp_inter", n] " |"
    }
' crates/avc_vlc/specs/Tables.antt
