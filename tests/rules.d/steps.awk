# The words of a file named Steps in contracts of public functions, in the src of the crates in `called`: FILE:LINE: WORD. A contract stands between
# `pub` and a line that is an opening brace.

FNR == 1 {
  parts = split(FILENAME, path, "/")
  for (i = parts; i > 1 && path[i] != "src"; i--) { }
  asked = index(called, " " path[i - 1] " ")
  split("", step)
  inside = 0
}

asked && /^ghost use .*Steps\.\{/ {
  names = $0
  sub(/^.*\.\{/, "", names)
  sub(/\};$/, "", names)
  n = split(names, leaves, ", ")
  for (i = 1; i <= n; i++) { sub(/^.* as /, "", leaves[i]); step[leaves[i]] = 1 }
}

# a table's directory is for the engine alone
asked && /^pub .*fn / && !/ directory\(/ { inside = 1 }

inside {
  n = split($0, words, /[ (){},]+/)
  for (i = 1; i <= n; i++) if (words[i] in step) print FILENAME ":" FNR ": " words[i]
}

/^\{$/ { inside = 0 }
