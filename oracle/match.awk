# Holds the answers of a drill against the expected ones, command by command, and prints what passed and failed by command and number.
# Variables: commands, expected, got and reasons are files, name is what the log is called, show is how many failing lines are shown.

# The key under which an answer is counted.
function key_of(text,   words) {
    split(text, words, " ")
    if (words[1] != "cookies" && words[2] ~ /^[0-9]+$/) return words[1] " " words[2]
    return words[1]
}

# A long line is cut around the place where the two part.
function cut(text, at) {
    if (length(text) <= 400) return text
    if (at <= 200) return substr(text, 1, 400) " .."
    return substr(text, 1, 100) " .. " substr(text, at - 100, 300) " .."
}

function first_difference(a, b,   low, high, mid) {
    low = 0
    high = length(a) < length(b) ? length(a) : length(b)
    while (low < high) {
        mid = int((low + high + 1) / 2)
        if (substr(a, 1, mid) == substr(b, 1, mid)) low = mid
        else high = mid - 1
    }
    return low + 1
}

function fail(key, command, want, answer,   at) {
    failed[key]++
    if (shown >= show) return
    shown++
    at = first_difference(want, answer)
    print "shown " name " line " number ": " cut(command, 1)
    print "shown   expected " cut(want, at)
    print "shown   answered " cut(answer, at)
}

BEGIN {
    while ((getline line < reasons) > 0) {
        split(line, parts, " ")
        reason[parts[1]] = parts[2]
    }
    while ((getline command < commands) > 0) {
        number++
        if (command == "" || substr(command, 1, 1) == "#") continue
        if ((getline want < expected) <= 0) want = "(nothing)"
        if ((getline answer < got) <= 0) answer = "(nothing)"
        key = key_of(want)
        if (number in reason) listed[reason[number]]++
        if (want "" == answer "") passed[key]++
        else fail(key, command, want, answer)
    }
    while ((getline answer < got) > 0) {
        number++
        fail("(no command)", "(no command)", "(nothing)", answer)
    }
    for (key in passed) print "passed " key ": " passed[key]
    for (key in failed) print "failed " key ": " failed[key]
    for (key in listed) print "listed " key ": " listed[key]
}
