# The job of `lookup table` as a user of awk might write it: awk -f peer.awk UPDATES QUERY..
# All updates come before all queries, `wait` lines ask for nothing, and the pairs at the end are left to sort.
# Numbers above 2^53 lose digits.
function reply(text) { print "u " ++made " " text }
FNR == 1 { file++; asked = 0 }
$0 == "" || /^#/ { next }
file == 1 && $1 == "set" { reply($2 in map ? "was " map[$2] : "fresh"); map[$2] = $3; next }
file == 1 && $1 == "put" { if ($2 in map) reply("has " map[$2]); else { reply("fresh"); map[$2] = $3 }; next }
file == 1 && $1 == "del" { if ($2 in map) { reply("was " map[$2]); delete map[$2] } else reply("missing"); next }
file == 1 && $1 == "tidy" { reply("tidied"); next }
file > 1 && $1 == "get" { print "q " (file - 1) " " ++asked " " $2 ($2 in map ? " = " map[$2] : " absent"); next }
file > 1 && $1 == "wait" { next }
{ exit 4 }
END {
    fflush()
    sort = "sort -k2,2n"
    for (key in map) print "t " key " = " map[key] | sort
    close(sort)
    print "end"
}
