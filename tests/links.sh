#!/bin/sh
# links.sh PAGE..: each link of these pages in Markdown leads to a file that is there, beside the page, and one with `#` to a heading
# of it. Links to other sites are passed over. Silent where all is well, else a line for each link that is wrong, and status 1.
set -u

# The anchors of a page: its headings in small letters, without punctuation, with `-` for each blank.
anchors() { sed -n 's/^##* //p' "$1" | tr '[:upper:] ' '[:lower:]-' | tr -cd '[:alnum:]_\n-'; }

wrong=$(for page; do
    grep -oE '\]\([^)]+\)' "$page" | sed 's/^](//; s/)$//' | grep -v '^[a-z]*:' | sort -u | while read -r link; do
        file=$(dirname "$page")/${link%%#*}
        [ "${link%%#*}" ] || file=$page
        case $link in
            *'#'*) [ -f "$file" ] && anchors "$file" | grep -qxF "${link#*#}" ;;
            *) [ -e "$file" ] ;;
        esac || echo "$page: no $link"
    done
done)
[ -z "$wrong" ] || { printf '%s\n' "$wrong"; exit 1; }
