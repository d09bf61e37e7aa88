# Makes host/bench's lines of the amounts a block, WORK NAME AMOUNT: instructions in the first file, nanoseconds in
# the second, of which the least counts. `c-` stands before a work in C.
FNR == 1 { file++ }
!((file, $1, $2) in amount) || $3 < amount[file, $1, $2] { amount[file, $1, $2] = $3 }
file == 2 && $1 == "cbc" && !named[$2]++ { names[++n] = $2 }
file == 2 && $1 == "compare" && !compared[$2]++ { cards[++c] = $2 }
file == 2 && $1 == "seal" && !sealed[$2]++ { seals[++m] = $2 }

# The amount of a work and its ratio to another's, in nanoseconds and then in instructions. With `calls`, the amount
# is what is beyond the other's, shared among so many calls to a block.
function line(label, name, work, other, calls,    f, a, b, text) {
    text = label name
    for (f = 2; f >= 1; f--) {
        a = amount[f, work, name]
        b = amount[f, other, name]
        text = text sprintf(f == 2 ? " %.1f %.2f" : " %.0f %.2f", calls ? (a - b) / calls : a, a / b)
    }
    print text
}

END {
    for (i = 1; i <= n; i++) {
        line("", names[i], "blocks", "c-blocks")
        line("cbc-", names[i], "cbc", "c-cbc")
        line("entry-", names[i], "entry", "c-entry")
        line("chain-", names[i], "cbc", "blocks", 1)
        line("piece-", names[i], "bytes", "blocks", 16)
    }
    line("good-", "card", "good", "c-good")
    line("find-", "card", "find", "c-find")
    line("pass-", "card", "find", "good", 1)
    for (i = 1; i <= c; i++)
        line("compare-", cards[i], "compare", "c-compare")
    for (i = 1; i <= m; i++) {
        line("seal-", seals[i], "seal", "blocks")
        line("seal-piece-", seals[i], "seal-bytes", "blocks", 16)
    }
    line("omac-", "noekeon", "seal", "c-seal")
}
