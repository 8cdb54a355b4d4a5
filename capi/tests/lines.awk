# lines.awk: how many lines of a C file are neither blank nor comment. It knows no comment that begins in a text, and none by two slashes.
{ rest = $0; kept = ""
  while (rest != "") {
    if (inside) { at = index(rest, "*/"); if (!at) break; rest = substr(rest, at + 2); inside = 0 }
    at = index(rest, "/*"); if (!at) { kept = kept rest; break }
    kept = kept substr(rest, 1, at - 1); rest = substr(rest, at + 2); inside = 1 }
  if (kept ~ /[^ \t]/) lines++ }
END { print lines }
