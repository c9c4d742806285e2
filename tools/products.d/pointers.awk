# For tools/products: a module's text is laid out for pointers of 64 bits. Before it is compiled for a processor that has smaller ones, each
# pointer that lies in memory, or is handed back beside another value, is made a number of 64 bits there, so that all else lies where it lay.
# Without it that compiler reads such a pointer from the wrong place, finds that nothing can come of it, and leaves out what follows.
{
    line = $0
    gsub(/\{ i8, ptr \}/, "{ i8, i64 }", line)
    gsub(/\{ ptr, i64 \}/, "{ i64, i64 }", line)
    if ($0 ~ /\{[^}]*ptr[^}]*\}/ && line ~ /\{[^}"]*ptr[^}"]*\}/ && line !~ /^define |^declare |^attributes |^!/) {
        print "tools/products.d/pointers.awk: a pair with a pointer that is not known here: " $0 > "/dev/stderr"
        failed = 1
        exit 2
    }
}
# a part of such a pair
$0 ~ /= extractvalue \{ ptr, i64 \} .*, 0$/ || $0 ~ /= extractvalue \{ i8, ptr \} .*, 1$/ {
    name = $1
    sub(/^ *%[^ ]+ = /, "", line)
    print "  " name ".bits = " line
    print "  " name " = inttoptr i64 " name ".bits to ptr"
    next
}
line ~ /^ *%[^ ]+ = load ptr, ptr / {
    name = $1
    place = line
    sub(/^.*load ptr, ptr /, "", place)
    sub(/,.*/, "", place)
    print "  " name ".bits = load i64, ptr " place ", align 1"
    print "  " name " = inttoptr i64 " name ".bits to ptr"
    next
}
line ~ /^ *store ptr / {
    sub(/^ *store ptr /, "", line)
    comma = index(line, ", ptr ")
    value = substr(line, 1, comma - 1)
    place = substr(line, comma + 6)
    sub(/,.*/, "", place)
    stored++
    print "  %stored.bits." stored " = ptrtoint ptr " value " to i64"
    print "  store i64 %stored.bits." stored ", ptr " place ", align 1"
    next
}
{
    sub(/= alloca ptr, align 8/, "= alloca i64, align 8", line)
    print line
}
