# What is to be said of the contracts of public functions in .rt files, one a line: FILE:LINE<tab>KIND<tab>WHAT. A KIND is `requires` (it has one),
# `silent` (it has no ensures), `nothing` (an ensures that says nothing of the result, or of what a lent buffer holds at the end) or `bound` (a
# parameter, or a binder of the contract). Read after binders.awk.

function say(kind, what) { print FILENAME ":" began "\t" kind "\t" what }

# whether a text has a name as a word
function has(text, name,    rest, at, around) {
  for (rest = " " text " "; (at = index(rest, name)) > 0; rest = substr(rest, at + length(name))) {
    around = substr(rest, at - 1, 1) substr(rest, at + length(name), 1)
    if (around !~ /[A-Za-z0-9_'-]/) return 1
  }
  return 0
}

# a text's words with one space between them, however it is bracketed and laid out
function words(text) {
  gsub(/[ \t(){}]+/, " ", text)
  gsub(/^ | $/, "", text)
  return text
}

# what stands in the first braces of a text
function braced(text,    start, i, c, depth) {
  start = index(text, "{")
  for (i = start; i <= length(text); i++) {
    c = substr(text, i, 1)
    if (c == "{") depth++
    if (c == "}" && --depth == 0) return substr(text, start + 1, i - start - 1)
  }
}

# the parts of an ensures that have not the same words on both sides of their sign
function telling(text,    parts, n, i, sides, out) {
  gsub(/[ \t]+/, " ", text)
  n = split(text, parts, / × /)
  for (i = 1; i <= n; i++) {
    if (split(parts[i], sides, / (≡|≤|↔) /) == 2 && words(sides[1]) == words(sides[2])) continue
    out = out " " words(parts[i])
  }
  return out
}

function judge(text,    signature, clauses, n, i, name, told, parameter) {
  signature = text
  sub(/[ \t](ensures|requires)[* \t].*$/, "", signature)
  name = signature
  sub(/^.*[ \t]fn /, "", name)
  sub(/[^A-Za-z0-9_].*$/, "", name)
  if (text ~ /[ \t]requires[* \t]/) say("requires", name)
  n = split(text, clauses, /[ \t]ensures[* \t]/)
  if (n == 1) { say("silent", name); return }
  for (i = 2; i <= n; i++) {
    binders(braced(clauses[i]))
    told = told " " telling(braced(clauses[i]))
  }
  if (signature ~ /->/ && !has(told, "result")) say("nothing", name ": of its result")
  if (signature ~ /\( *&('[a-z_]+ +)?mut self *[,)]/ && !has(told, "self.new")) say("nothing", name ": of self at the end")
  sub(/^[^(]*\(/, "", signature)
  sub(/\)[^)]*$/, "", signature)
  while (match(signature, /[a-z_][a-z0-9_]*:/)) {
    parameter = substr(signature, RSTART, RLENGTH - 1)
    signature = substr(signature, RSTART + RLENGTH)
    say("bound", parameter)
    if (signature ~ /^ *&('[a-z_]+ +)?mut / && !has(told, parameter ".new")) say("nothing", name ": of " parameter " at the end")
  }
}

FNR == 1 { open = 0 }

{
  line = $0
  sub(/(^|[ \t])\/\/.*$/, "", line)
  if (!open && line ~ /^[ \t]*(#\[unsafe\(no_mangle\)\][ \t]*)?pub ((const|unsafe|extern "C") )*fn /) { open = 1; began = FNR; whole = "" }
  if (!open) next
  whole = whole " " line
  if (line ~ /\{\}?[ \t]*$/) { judge(whole); open = 0 }
}
