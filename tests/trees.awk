# The flatpack text with leaves of a named tree: awk -v tree=NAME -v n=NODES -f tests/trees.awk, NAME one of jordan_wigner, parity, bravyi_kitaev, jkmn.
# Slot 3i + l is the X, Y or Z slot (l is 0, 1, 2) of node i. Node k stands in the slot under(k). X leaf i is at the end of the Z chain that starts at node i's X child, or in
# the X slot itself if no node is there; Y likewise.
function under(k) {
    if (tree == "jordan_wigner") return 3 * (k - 1) + 2
    if (tree == "parity") return 3 * (k - 1)
    if (tree == "bravyi_kitaev") return k < 2 ? 0 : 3 * int(k / 2) + (k % 2 == 0 ? 0 : 2)
    return 3 * int((k - 1) / 3) + (k - 1) % 3
}

function held(s) { return (s in node) ? node[s] : (s in leaf) ? n + leaf[s] : "-" }

BEGIN {
    for (k = 1; k < n; k++) node[under(k)] = k
    for (m = 0; m < 2 * n; m++) {
        s = 3 * int(m / 2) + m % 2
        while (s in node) s = 3 * node[s] + 2
        leaf[s] = m
    }
    for (i = 0; i < n; i++) printf "%d\t%s\t%s\t%s\n", i, held(3 * i), held(3 * i + 1), held(3 * i + 2)
}
