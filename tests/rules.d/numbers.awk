# Two files: the list of what is allowed ('NUMBER FILE LINES WHY' a line, # starts a remark), then what bare.awk prints.
# Prints where the two differ; with -v show=1 what there is, as entries of the list, each with the reason that it had, or ?.
FILENAME == ARGV[1] && NF > 0 && !/^#/ {
    place = $1 " " $2
    allowed[place] = $3
    why[place] = $4
    for (i = 5; i <= NF; i++) why[place] = why[place] " " $i
}
FILENAME == ARGV[2] { found[$1 " " $2]++ }
END {
    for (place in found) {
        split(place, part, " ")
        if (show) print place, found[place], (place in why ? why[place] : "?")
        else if (found[place] > allowed[place] + 0) print part[2] ": " part[1] " is bare on lines: " found[place] ", allowed: " (allowed[place] + 0)
    }
    for (place in why) {
        split(place, part, " ")
        if (!show && found[place] < allowed[place]) print part[2] ": " part[1] " is bare on lines: " (found[place] + 0) ", and allowed still: " allowed[place]
        if (!show && (why[place] == "" || why[place] == "?")) print part[2] ": " part[1] " is allowed, and nothing says why"
    }
}
