# Writes out the records of worked answers: n*times becomes so many of n.
/^#/ { print; next }
{
    line = $1
    for (i = 2; i <= NF; i++) {
        times = split($i, part, "*") == 2 ? part[2] : 1
        for (j = 0; j < times; j++) line = line " " part[1]
    }
    print line
}
