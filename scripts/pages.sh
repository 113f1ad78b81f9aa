#!/bin/sh
# pages.sh [FOLDER]: makes pages to be read in a browser, in docs/pages where no folder is named: the claim on top, then the definitions that
# docs/TRUSTED.md lists, each name of which leads to where it is defined and each clause to all that name it, and the contracts of the public
# calls. They are made of the sources and not kept.
set -eu
export LC_ALL=C
cd "$(dirname "$0")/.."
to=${1:-docs/pages}
mkdir -p "$to"
rm -f "$to"/*.html "$to/counts" "$to/crates"
work=$(mktemp -d)
trap 'rm -rf "$work"' EXIT
scripts/definitions.sh links >"$work/links"
awk -F '\t' '$1 == "call" { print $3 } $1 ~ /^[1-4]$/ { print $2 }' "$work/links" | sort -u >"$work/files"
# shellcheck disable=SC2046
awk -v to="$to" -f scripts/pages.awk "$work/links" $(cat "$work/files") docs/PROVED.md

cat >"$to/style.css" <<'CSS'
body { max-width: 78em; margin: 1em auto; padding: 0 1em; font: 16px/1.5 sans-serif; color: #222; background: #fff }
nav a { margin-right: 1.5em }
a { color: #0b57a4; text-decoration: none }
a:hover { text-decoration: underline }
pre { background: #f5f5f2; padding: .6em .8em; white-space: pre-wrap; font: 13px/1.45 monospace; margin: .3em 0 1.2em }
pre i { color: #667; font-style: normal }
section p { margin: .8em 0 0 }
section:target { outline: 2px solid #d8a600; outline-offset: 4px }
.clause { color: #7a4b00 }
.about { color: #444 }
table { border-collapse: collapse }
td, th { text-align: left; padding: .2em 1em .2em 0; vertical-align: top }
dd { margin: 0 0 .6em 2em }
CSS

{
    echo '<h2>What has to be believed</h2><p>Begin at <a href="avc_laws.html#Headline.TakesThem">TakesThem</a> and follow the words; or read crate by crate, or <a href=clauses.html>by clause</a>.<table><tr><th>What is promised<th>definitions, those before not counted'
    awk -F '\t' '{ print "<tr><td>" $1 "<td>" $2 }' "$to/counts"
    echo '</table><h2>By crate</h2><table><tr><th>Crate<th>About<th>Definitions and types'
    while IFS='	' read -r crate count; do
        root=crates/$crate/src/lib.rt
        [ -f "$root" ] || root=crates/$crate/src/main.rt
        echo "<tr><td><a href=$crate.html>$crate</a><td>$(sed -n '1s/^\/\/! //p' "$root" | sed 's/`\([^`]*\)`/<code>\1<\/code>/g')<td>$count"
    done <"$to/crates"
    echo '</table>'
} >>"$to/index.html"
rm -f "$to/counts" "$to/crates"
echo "$to/index.html"
