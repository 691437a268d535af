# The counts (`ROW INSTRUCTIONS`, the last of a stretch counts) and the rows of benchmark.c, made into a table.
NR == FNR { split($0, field, " "); stretch[field[1]] = field[2]; next }

function number(n,   text, out) {
    text = sprintf("%d", n)
    while (length(text) > 3) {
        out = "," substr(text, length(text) - 2) out
        text = substr(text, 1, length(text) - 3)
    }
    return text out
}

# The limit, and whether it is kept.
function target(text, kept) {
    targets = targets (targets == "" ? "" : "; ") text
    if (!kept) missed = missed (missed == "" ? "" : "; ") text
}

FNR == 1 {
    printf "Instructions a call, counted by %s in one run. The C model (host/model) and the benchmark are compiled\n", counter
    printf "by %s at -O2 and linked statically. The cost of the call itself, as counted for an empty\n", compiler
    print "function of the same form, is taken off each number. memcpy and memset are glibc's, held to the 16-byte registers that"
    print "every x86-64 processor has, so that the counts do not depend on the processor."
    print ""
    print "| call | ours | C model | ratio | memcpy or memset | ratio | target | met |"
    print "|---|--:|--:|--:|--:|--:|---|---|"
}

{
    row = 10 * $1; name = $2; refused = $3 != 0; memory = $4; limit = $5
    short = $6 % 2 == 1; folded = int($6 / 2) % 2 == 1; as_model_2 = int($6 / 4) % 2 == 1
    as_status = int($6 / 16) % 2 == 1
    a_sample = int($6 / 32) % 2 == 1 ? 12 : int($6 / 64) % 2 == 1 ? 20 : 0
    ours = stretch[row] - stretch[row + 3]
    model = stretch[row + 1] - stretch[row + 3]
    moved = memory == "-" ? 0 : stretch[row + 2] - stretch[row + 4]
    targets = ""; missed = ""
    target(refused ? "1.5 of C" : "1.0 of C", ours <= model * (refused ? 1.5 : 1.0))
    if (limit != "-") target(limit " of " memory, ours <= moved * limit)
    if (short) target("under 300", ours < 300)
    if (folded) target("1.1 of 256 bytes", ours <= before * 1.1)
    if (as_model_2) target("no more than on model 2", ours <= before)
    if (as_status) target("1.2 of 05", ours <= before * 1.2)
    if (a_sample) target(a_sample " a sample", ours <= 65536 * a_sample)
    if (missed != "") misses++
    printf "| %s | %s | %s | %.2f | %s | %s | %s | %s |\n", name, number(ours), number(model), ours / model,
        moved ? number(moved) : "", moved ? sprintf("%.2f", ours / moved) : "", targets,
        missed == "" ? "yes" : "no: " missed
    before = ours
    rows++
}

END { printf "\n%d rows, %d with a target missed.\n", rows, misses }
