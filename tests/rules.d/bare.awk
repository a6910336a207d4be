# Prints 'NUMBER FILE' for each line that has a number of 01 bare: with or without a type behind it, and not in a name or a remark.
# The latter numbers mean other things too, and count only in code.
BEGIN {
    numbers = split("96 191 192 390 402 45 46 36524 4294967295", number, " ")
    everywhere = 5
    for (i = 1; i <= numbers; i++) {
        digits = number[i]
        gsub(/./, "&_?", digits)
        bare[i] = "(^|[^0-9A-Za-z_'-]|[^0-9A-Za-z_']-)" digits "([iu](8|16|32|64|size))?([^0-9A-Za-z_'-]|$)"
    }
}
/[0-9][0-9]/ {
    line = $0
    sub(/(^|[ \t])(--|\/\/).*$/, "", line)
    file = FILENAME
    sub(/^.*crates\//, "crates/", file)
    for (i = 1; i <= (file ~ /\.rt$/ ? numbers : everywhere); i++) if (line ~ bare[i]) print number[i], file
}
