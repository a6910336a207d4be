# The names that .antt files declare or bind, one a line: FILE:LINE<tab>KIND<tab>NAME. A KIND is `pub` or `own` (a signature, however it is marked,
# with any level or implicit arguments; a data type, a record, what is derived), `con` (a constructor), `field` (of a record), `bound` (a parameter, a
# binder, a let) or `pattern` (a word of a clause's left side, but its first). An escaped name is given bare: it is the same name.
# Read after binders.awk.

function say(kind, name) {
  gsub(/«|»/, "", name)
  if (name != "" && name != "_" && name != ":") print FILENAME ":" FNR "\t" kind "\t" name
}

# a text up to the first `sign` outside brackets, without what stands in brackets unless `all`; nothing where there is no such sign
function before(sign, text, all,    i, c, depth, out) {
  for (i = 1; i <= length(text); i++) {
    c = substr(text, i, 1)
    if (c == "(" || c == "{") depth++
    if (depth == 0 && substr(text " ", i, 2) == sign " " && substr(" " text, i, 1) == " ") return out
    if (depth == 0 || all) out = out c
    if (c == ")" || c == "}") depth--
  }
  return ""
}

FNR == 1 { block = begun = "" }

{
  line = $0
  sub(/(^|[ \t])--.*$/, "", line)
  if (line ~ /^[ \t]*$/ || line ~ /^[ \t]*(pub |unfoldable )*(use|mod|open|infix[lr]?|unfolding|ruleset) /) next
  binders(line)
  match(line, /^[ \t]*/)
  indent = RLENGTH
  head = substr(line, indent + 1)
  # what was begun above goes on here
  if (begun != "" && indent > begun_indent) { head = begun " " head; indent = begun_indent }
  whole = head
  begun = ""
  if (block != "" && indent <= block_indent) block = ""
  public = 0
  while (match(head, /^(unfoldable|abbrev|pub|axiom)[ \t]+/)) {
    if (head ~ /^pub/) public = 1
    head = substr(head, RLENGTH + 1)
  }
  if (head ~ /^(data|record) [^{]/) {
    block = head ~ /^data/ ? "con" : "field"
    block_indent = indent
    sub(/^(data|record) /, "", head)
    sub(/[ \t].*/, "", head)
    say(public ? "pub" : "own", head)
  } else if (head ~ /^deriving .* as /) {
    sub(/.* as /, "", head)
    say("pub", head)
  } else if (head !~ /^(module|let|in|where|λ|record) /) {
    names = before(":", head)
    if (names !~ /[=;]|→|λ/) each(block != "" ? block : public ? "pub" : "own", names)
    left = before("=", head, 1)
    # neither sign, and not within what the last one began: its sign is on a later line
    if (names left != "") last_indent = indent
    else if (indent <= last_indent && head !~ /^([])}]|(where|mutual)[ \t]*$)/) { begun = whole; begun_indent = indent }
    gsub(/[(){},]/, " ", left)
    if (sub(/^[^ ]+ /, "", left)) each("pattern", left)
  }
}
