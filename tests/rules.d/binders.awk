# What contracts.awk and declared.awk read alike: the names that a text binds. Each has a `say` of its own.

# each word of a text that is a list of names
function each(kind, text,    words, n, i) {
  n = split(text, words, /[ \t,]+/)
  for (i = 1; i <= n; i++) say(kind, words[i])
}

# the binders of a text: (a b : T), {a : T}, λ a b., let a
function binders(text,    rest, found) {
  for (rest = text; match(rest, /[({][^(){}:;=.]* : /); rest = substr(rest, RSTART + RLENGTH)) each("bound", substr(rest, RSTART + 1, RLENGTH - 4))
  for (rest = text; match(rest, /λ [^().]*\./); rest = substr(rest, RSTART + RLENGTH)) {
    found = substr(rest, RSTART, RLENGTH - 1)
    sub(/^λ/, "", found)
    each("bound", found)
  }
  for (rest = text; match(rest, /(^|[ (])let [^ ]+ [:=]/); rest = substr(rest, RSTART + RLENGTH)) {
    found = substr(rest, RSTART, RLENGTH - 2)
    sub(/^.*let /, "", found)
    say("bound", found)
  }
}
