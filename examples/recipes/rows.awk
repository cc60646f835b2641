# Makes a table with commas of the lines `attempt` of reports, or of the lines `message` of message listings. The first row has the names of the columns.
# usage: awk -f rows.awk < REPORT
# terminal and subaddress are those of the first command word: of a relay the receiver's, and then from and from_subaddress are the transmitter's. count is the
# number of data words, of a mode command its code. answer is the number behind the outcome; statuses and words are parted by spaces.
# The status is 1 where the text doesn't end with a line `end`, so isn't whole.
function digit(place) { return index("123456789ABCDEF", substr(word, place, 1)) }
function take_apart(command) {
    word = command
    of_terminal = 2 * digit(1) + int(digit(2) / 8)
    transmits = int(digit(2) / 4) % 2
    of_subaddress = digit(2) % 4 * 8 + int(digit(3) / 2)
    of_count = digit(3) % 2 * 16 + digit(4)
}
BEGIN { OFS = ","; print "start,channel,form,terminal,subaddress,count,from,from_subaddress,outcome,answer,statuses,words" }
{ whole = $1 == "end" }
$1 == "attempt" { channel = $11; start = $12; field = 13 }
$1 == "message" { channel = $3; start = $2; field = 4 }
$1 == "attempt" || $1 == "message" {
    form = terminal = subaddress = count = from = from_subaddress = answer = ""
    if ($field ~ /^[0-9A-F][0-9A-F][0-9A-F][0-9A-F]/) {
        take_apart(substr($field, 1, 4))
        terminal = of_terminal; subaddress = of_subaddress; count = of_count
        form = subaddress % 31 == 0 ? "mode" : transmits ? "transmit" : "receive"
        if (length($field) == 9) { take_apart(substr($field, 6, 4)); form = "relay"; from = of_terminal; from_subaddress = of_subaddress }
        if (form != "mode" && count == 0) count = 32
        field++
    }
    outcome = $(field++)
    if ($field ~ /^[12]$/) answer = $(field++)
    list["status"] = list["words"] = name = ""
    for (; field <= NF; field++)
        if ($field == "status" || $field == "words") name = $field
        else list[name] = list[name] (list[name] == "" ? "" : " ") $field
    print start, channel, form, terminal, subaddress, count, from, from_subaddress, outcome, answer, list["status"], list["words"]
}
END { if (!whole) { print "rows.awk: the text has no last line `end`" > "/dev/stderr"; exit 1 } }
