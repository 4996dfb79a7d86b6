# Makes of each session of sessions.txt, the k-th of all, a trace k.log, what is printed of it, k.replayed, and its SDO timeout,
# k.time; prints how many there are.
function segments(file, id, last,    n) {
    for (n = 1; n <= last; n++) printf "(%s) can0 %s#%02X00000000000000\n", stamp, id, n > file
}
/^#/ || /^$/ { next }
/^new / {
    count++
    log_file = count ".log"; printed = count ".replayed"; stamp = "0000000000.000000"
    printf "" > log_file
    print "(" stamp ") can0 705#00" > printed
    print $2 > (count ".time")
    next
}
/^at / { stamp = $2; next }
/^answers / { segments(printed, "585", $2); next }
/^segments / { segments(log_file, "605", $2); next }
/^;/ { print > printed; next }
{
    cut = index($0, " = ")
    input = cut ? substr($0, 1, cut - 1) : $0
    if (input ~ /^[!(]/) print input > log_file
    else if (input != "") print "(" stamp ") can0 " input > log_file
    frames = split(cut ? substr($0, cut + 3) : "", words, " ")
    for (word = 1; word <= frames; word++) print "(" stamp ") can0 " words[word] > printed
}
END { print count }
