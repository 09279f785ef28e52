# The row report of a flatpack text with leaves that is accepted, from the paths of its tree: awk -f tests/report.awk TEXT.
# Row m belongs to the leaf of number m + largest qubit + 1: each node on the path from the root has the letter of the edge that leaves it, the last one that of the leaf's slot;
# p is the number of Y letters mod 4.
BEGIN { FS = "\t" }

{
    i = NR - 1
    qubit[i] = $1
    node[$1] = i
    if ($1 + 1 > columns) columns = $1 + 1
    for (l = 0; l < 3; l++) slot[3 * i + l] = $(l + 2)
}

END {
    for (s = 0; s < 3 * NR; s++) {
        if (slot[s] == "-") continue
        if (slot[s] in node) parent[node[slot[s]]] = s
        else place[slot[s] - columns] = s
    }
    printf "majorana\t%d\t%d\n", NR, columns
    for (m = 0; m < 2 * NR; m++) {
        split("", letter)
        p = 0
        s = place[m]
        for (;;) {
            i = int(s / 3)
            letter[qubit[i]] = substr("XYZ", s % 3 + 1, 1)
            if (s % 3 == 1) p++
            if (!(i in parent)) break
            s = parent[i]
        }
        line = ""
        for (j = 0; j < columns; j++) line = line ((j in letter) ? letter[j] : "I")
        printf "%d\t%d\t%s\n", m, p % 4, line
    }
    line = ""
    for (j = 0; j < columns; j++) line = line "0"
    printf "vacuum\t%s\n", line
}
