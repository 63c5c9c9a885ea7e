# Prints the header and the rows of the reply number `keep`; `queries` are the numbers of others that have rows.
left > 0 { if (n == keep) print; quotes += gsub(/"/, "&"); if (quotes % 2 == 0) left--; next }
{ n++; if ($1 == "ok" && (n == keep || index(" " queries " ", " " n " "))) left = $2 + 1 }
$1 == "err" { print "reply " n ": " $0 > "/dev/stderr"; bad = 1 } END { exit bad || left || n < keep }
