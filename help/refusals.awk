# Says what was refused, in words. Input: numbers.txt, then the results with FS a comma.
NR == FNR { if (/^[0-9]/) meaning[$1] = substr($0, index($0, " ") + 1); next }
FNR == 1 { next }
{ lines++ }
$2 == 0 { next }
{ words = "line " $1 ": " $2 ", " meaning[$2] }
$2 <= 3 { print "run: the sheet was refused, and nothing of it has run"; print words; next }
++refused <= 10 { told = told words "\n" }
END {
    if (!refused) exit
    printf "run: %d of %d lines refused\n%s", refused, lines, told
    if (refused > 10) print "and " refused - 10 " more"
    print "docs/GUIDE.md says what to do about each number"
}
