# Adds up the counts of several logs; the last line is what passed and failed in all, and the exit status is 1 if anything failed.
/^shown / { next }
{
    kind = $1
    count = $NF
    key = substr($0, length(kind) + 2, length($0) - length(kind) - length(count) - 3)
    if (!((kind, key) in sum)) order[++keys] = kind SUBSEP key
    sum[kind, key] += count
    total[kind] += count
}
END {
    split("steps passed failed listed", kinds, " ")
    for (k = 1; k <= 4; k++) {
        for (i = 1; i <= keys; i++) {
            split(order[i], parts, SUBSEP)
            if (parts[1] == kinds[k]) print kinds[k] " " parts[2] ": " sum[order[i]] | "sort -k2,2 -k3,3n"
        }
        close("sort -k2,2 -k3,3n")
    }
    print total["passed"] + 0 " passed, " total["failed"] + 0 " failed"
    exit total["failed"] > 0 || total["passed"] == 0
}
