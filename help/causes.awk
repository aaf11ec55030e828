# The likely causes of a sheet's refusal, looked up in its bytes. Input: the sheet as `od -An -v -tu1` prints it. `line`
# is the line that was refused, 0 for the sheet as a whole.
BEGIN {
    at = 1
    mark[13] = "a carriage return stands in the line: a sheet's lines end in 0x0A alone"
    mark[34] = mark[39] = "there are quotes in the line"
    mark[59] = "semicolons stand for commas"
    mark[9] = "tabs stand for commas"
    mark[32] = "there are spaces in the line"
    mark[43] = mark[45] = "a value has a sign"
    mark[46] = "a value has a decimal point"
}

# A line of nine values has at most 188 bytes: of a longer one, the beginning will do.
{
    for (k = 1; k <= NF; k++) {
        byte = $k + 0
        if (++size <= 3) head[size] = byte
        if (at == line && byte != 10) {
            seen[byte]++
            if (++width <= 200) text = text (byte > 32 && byte < 127 ? sprintf("%c", byte) : "?")
        }
        if (byte == 10) at++
    }
}

function say(cause) {
    if (!(cause in said)) print "likely cause: " cause
    said[cause] = told = 1
}

# Two bytes to a character: a byte order mark of two, or a zero beside a letter.
function is_utf16() {
    if (head[1] == 255 && head[2] == 254 || head[1] == 254 && head[2] == 255) return 1
    return size > 1 && (head[1] == 0) != (head[2] == 0)
}

# A digit of either base, an x or a comma.
function may_stand(byte) {
    return byte >= 48 && byte <= 57 || byte >= 97 && byte <= 102 || byte == 120 || byte == 44
}

# Bytes that belong in no line of a sheet.
function look_at_bytes(    byte) {
    if (line == 1 && head[1] == 239 && head[2] == 187 && head[3] == 191) say("a byte order mark stands before the line")
    if (line > 1 && text ~ /[A-Z]/) say("there are capital letters in the line: base 16 is 0x and lower-case digits")
    for (byte = 0; byte < 256; byte++) if (seen[byte] && byte in mark) say(mark[byte])
    if (told || line == 1) return
    for (byte = 0; byte < 256; byte++) if (seen[byte] && !may_stand(byte))
        say(sprintf("the byte 0x%02X is neither a digit nor a comma", byte))
}

function look_at_first_line() {
    if (text == "") say("the line is empty")
    else if (text ~ /^[0-9,]+$/) say("the line is missing: the sheet begins with values")
    else if (text != tolower(text)) say("there are capital letters in the line")
    else if (seen[44] != 8) say("the line has " seen[44] + 1 " names")
    else if (text != "op,a,b,c,d,e,f,g,h") say("the line has other names: " text)
}

# What stands behind 0x.
function look_at_base_16(name, digits) {
    if (digits == "") say(name " is 0x without a digit")
    else if (digits ~ /x/) say(name " has an x among its digits")
    else if (digits ~ /^0./) say(name " has a leading zero behind 0x")
    else if (length(digits) > 16) say(name " is not below 2^64")
}

function look_at_values(    value, k) {
    if (text == "") say("the line is empty")
    else if (seen[44] != 8) say("the line has " seen[44] + 1 (seen[44] < 8 ? " values, too few" : " values, too many"))
    else for (k = split(text, value, ","); k; k--) {
        if (value[k] == "") say("value " k " is empty")
        else if (value[k] ~ /^0x/) look_at_base_16("value " k, substr(value[k], 3))
        else if (value[k] ~ /[a-fx]/) say("value " k " has a letter and does not begin with 0x")
        else if (value[k] ~ /^0./) say("value " k " has a leading zero")
        else if (length(value[k]) > 20 || length(value[k]) == 20 && "_" value[k] > "_18446744073709551615")
            say("value " k " is not below 2^64")
    }
}

END {
    if (!size) say("the file is empty")
    else if (is_utf16()) say("the file is UTF-16, two bytes to a character: save it as plain text")
    else if (!line) say("its first 65,536 bytes have " at - 1 " lines, and there is more")
    else {
        look_at_bytes()
        if (!told && line == 1) look_at_first_line()
        if (!told && line > 1) look_at_values()
        if (line == at) say("the line is the last and has no line end")
    }
}
