# Lines of "row <tab> who <tab> number" to a table: a row for each row, a column for each who, in the order in which
# they come. Behind every number but the first of a row stands, in brackets, how many times the first it is.
BEGIN { FS = "\t" }
{
    if (!($1 in rows)) { rows[$1] = 1; row[++row_count] = $1 }
    if (!($2 in columns)) { columns[$2] = 1; column[++column_count] = $2 }
    number[$1, $2] = $3
}
END {
    printf "%-32s", ""
    for (c = 1; c <= column_count; c++) printf c == 1 ? " %9s" : " %18s", column[c]
    print ""
    for (r = 1; r <= row_count; r++) {
        first = number[row[r], column[1]]
        printf "%-32s %9." digits "f", row[r], first
        for (c = 2; c <= column_count; c++)
            if ((row[r], column[c]) in number) {
                here = number[row[r], column[c]]
                printf " %10." digits "f (%5.2f)", here, here / first
            }
        print ""
    }
}
