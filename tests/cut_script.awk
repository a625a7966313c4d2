# A script whose peers send in other pieces: what a peer says in lines that follow one another comes in two pieces, of which the first has `first` bytes
# (if there are as many), or byte by byte where `first` is `each`. The other lines stay as they are.
#
#     od -An -v -tx1 SCRIPT | awk -v first=N -f cut_script.awk
BEGIN {
    for (i = 0; i < 256; i++)
        char[sprintf("%02x", i)] = sprintf("%c", i)
}
{
    for (i = 1; i <= NF; i++)
        if ($i == "0a") { end_line(); count = 0 } else line[++count] = $i
}
END {
    if (count > 0)
        end_line()
    say()
}

# One line of the script: what it has a peer say waits for the next that is another's.
function end_line(    i, next_peer, text) {
    next_peer = ""
    if (count >= 3 && (line[1] == "4c" || line[1] == "49") && (line[3] == "20" || line[3] == "78"))
        next_peer = char[line[1]] char[line[2]]
    if (next_peer != peer) {
        say()
        peer = next_peer
    }
    if (peer == "") {
        text = ""
        for (i = 1; i <= count; i++)
            text = text char[line[i]]
        print text
    } else if (line[3] == "20") {
        for (i = 4; i <= count; i++)
            said = said line[i]
        said = said "0d0a"
    } else {
        for (i = 5; i <= count; i++)
            said = said char[line[i]]
    }
}

# What waits, in its pieces.
function say(    i) {
    if (said != "" && first == "each") {
        for (i = 1; i < length(said); i += 2)
            print peer "x " substr(said, i, 2)
    } else if (said != "") {
        if (first > 0)
            print peer "x " substr(said, 1, 2 * first)
        if (2 * first < length(said))
            print peer "x " substr(said, 2 * first + 1)
    }
    said = ""
}
