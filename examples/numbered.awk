# Numbers the replies to a script and indents their rows: awk -f examples/numbered.awk SCRIPT REPLIES
FNR == NR { if (inside) { inside = !/^\\\.\r?$/; next }
            if (/^[ \t]*(--|\r?$)/) next
            word = tolower($0); sub(/^[ \t]+/, "", word); sub(/[^a-z0-9_].*/, "", word)
            words[++n] = word; inside = word == "load"; next }
left > 0  { quotes += gsub(/"/, "&"); if (quotes % 2 == 0) left--; print "    " $0; next }
          { i++; print i ": " $0
            if ($1 == "ok" && words[i] ~ /^(show|group|distinct)$/) { left = $2 + 1; quotes = 0 } }
