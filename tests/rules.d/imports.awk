# What the `use` and `open` lines of .antt and .rt files bring in, one a line: FILE:LINE<tab>PATH<tab>NAME<tab>UNDER, where UNDER is the name that
# it has in the file. A module is its last word.

function say(path, name,    parts, n) {
  gsub(/^[ \t]+|[ \t]+$/, "", name)
  gsub(/«|»/, "", name)
  if (name == "") return
  n = split(name, parts, /[ \t]+as[ \t]+/)
  if (n == 1) sub(/^.*[^.]\./, "", parts[1])
  print FILENAME ":" FNR "\t" path "\t" parts[1] "\t" parts[n]
}

FNR == 1 { whole = "" }

{
  line = $0
  sub(/(^|[ \t])(--|\/\/).*$/, "", line)
  if (whole == "" && line !~ /^[ \t]*(pub |unfoldable |ghost )*(use|open) /) next
  whole = whole " " line
  if ((whole ~ /\{/ && whole !~ /\}/) || (whole ~ /\(/ && whole ~ /using/ && whole !~ /\)[ \t]*$/)) next
  text = whole
  whole = ""
  sub(/;[ \t]*$/, "", text)
  if (text ~ /^[ \t]*(pub |unfoldable |ghost )*open /) {
    if (text !~ /using \(/) next
    path = "open"
    sub(/^.*using \(/, "", text)
    sub(/\)[ \t]*$/, "", text)
  } else {
    sub(/^[ \t]*(pub |unfoldable |ghost )*use /, "", text)
    path = text
    if (text !~ /\.\{/) { say(path, text); next }
    sub(/\.\{.*$/, "", path)
    sub(/^[^{]*\{/, "", text)
    sub(/\}[ \t]*$/, "", text)
  }
  n = split(text, leaves, ",")
  for (i = 1; i <= n; i++) say(path, leaves[i])
}
