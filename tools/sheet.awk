# The assembler of run sheets: text to bytes, bytes to instructions, and why a sheet is broken, all from the one table below.
#
# Reads a file's bytes as `od -An -v -tu1` prints them, and writes two lines: why the sheet is broken, or nothing; then what is wanted
# of it, as escapes of printf, with \c at its end, so that the line is never empty. NAME in the environment is the file's name in
# messages, WRITE what is wanted:
#   bytes   every byte
#   run     the same, without the bytes that no sheet can have and the program does not read
#   text    the sheet as instructions; of a broken one nothing
# A text with mistakes gets a message for each line that has one, and status 2.

BEGIN {
    # A section of a sheet: its name, the most records it may have, and a record's places with their bytes.
    section("mapping", 256, "space 1 page 2 frame 1 rights 1")
    section("step", 4096, "kind 1 s 1 p 2 o 1 w 4")

    # An instruction: its name, its section, its kind there, and its fields, each with its place. A place that it does not use is 0.
    # A name has a letter that is no hexadecimal digit: by that instructions are told from a text of bytes.
    instruction("map", "mapping", "", "SPACE space PAGE page FRAME frame RIGHTS rights")
    instruction("read", "step", 1, "SPACE s PAGE p OFFSET o")
    instruction("write", "step", 2, "SPACE s PAGE p OFFSET o WORD w")
    instruction("device-read", "step", 3, "FRAME s")
    instruction("device-write", "step", 4, "FRAME s WORD w")
    instruction("evict", "step", 5, "LINE s")
    instruction("unmap", "step", 6, "SPACE s PAGE p")
    instruction("device-write-part", "step", 7, "FRAME s FIRST p NUMBER o WORD w")
    instruction("begin-read", "step", 8, "FRAME s")
    instruction("begin-write", "step", 9, "FRAME s")
    instruction("bring-word", "step", 10, "FRAME s OFFSET o WORD w")
    instruction("take-word", "step", 11, "FRAME s OFFSET o")
    instruction("end-transfer", "step", 12, "FRAME s")
    instruction("fetch", "step", 13, "SPACE s PAGE p OFFSET o")

    # A word that stands for a number in a field.
    word_for("RIGHTS", 1, "r")
    word_for("RIGHTS", 2, "rw")
    word_for("RIGHTS", 3, "rx")

    # The numbers of a field that a call takes, where its place holds others; with these the call is refused.
    taken("SPACE", "0 to 15")
    taken("PAGE", "0 to 1023")
    taken("FRAME", "0 to 63")
    taken("RIGHTS", "1 to 3")
    taken("OFFSET", "0 to 63")
    taken("LINE", "0 to 127")
    taken("FIRST", "0 to 63")
    taken("NUMBER", "1 to 64")

    longest_text = 1048576
    longest_quote = 40
    most_told = 10
    for (i = 0; i < 256; i++) character[i] = sprintf("%c", i)
    for (i = 0; i < 16; i++) digit[substr("0123456789abcdef", i + 1, 1)] = digit[substr("0123456789ABCDEF", i + 1, 1)] = i
    inputs = words = count = mistakes = 0
}

{ for (i = 1; i <= NF; i++) input[inputs++] = $i + 0 }

END {
    for (i = 0; i < inputs && input[i] != 0; i++);
    if (inputs > longest_text && (i == inputs || ENVIRON["WRITE"] == "bytes"))
        mistake("", sprintf("it is longer than %d bytes, the longest that is taken; the largest sheet has %d bytes", longest_text, largest()))
    else if (i < inputs) take_bytes()
    else take_text()
    if (mistakes > most_told) say(sprintf("%d more line%s with a mistake", mistakes - most_told, mistakes - most_told == 1 ? "" : "s"))
    if (mistakes > 0) exit 2
    why = broken()
    print why
    if (ENVIRON["WRITE"] != "text") write_bytes(ENVIRON["WRITE"] == "run" && count > largest() ? largest() + 1 : count)
    else if (why == "") write_text()
    print "\\c"
}

# ---- the table

function section(name, most, places,    part, n, i) {
    section_named[sections++] = name
    most_records[name] = most
    n = split(places, part, " ")
    for (i = 1; i < n; i += 2) {
        place[name, place_count[name]++] = part[i]
        width[name, part[i]] = part[i + 1]
        record_bytes[name] += part[i + 1]
    }
}

function instruction(name, in_section, kind, fields,    part, n, i) {
    instructions = instructions (instructions == "" ? "" : ", ") name
    section_of[name] = in_section
    kind_of[name] = kind
    instruction_of[in_section, kind] = name
    n = split(fields, part, " ")
    for (i = 1; i < n; i += 2) {
        field[name, field_count[name]++] = part[i]
        place_of[name, part[i]] = part[i + 1]
        uses[name, part[i + 1]]
    }
}

function word_for(f, number, word) {
    number_for[f, word] = number
    word_of[f, number] = word
    words_for[f] = words_for[f] word " or "
}

function taken(f, numbers) { taken_by_a_call[f] = ", of which a call takes " numbers }

# ---- what is read, as the sheet's bytes

function take_bytes() {
    for (; count < inputs; count++) byte[count] = input[count]
}

# Finds the text's words: word k stands in line[k], from first[k] to before past[k]. A comment goes from # to the end of its line.
# A byte order mark at the text's start is passed over.
function take_text(    i, c, text_line, in_comment, open) {
    text_line = 1
    for (i = input[0] == 239 && input[1] == 187 && input[2] == 191 ? 3 : 0; i < inputs; i++) {
        c = input[i]
        if (c == 10) {
            text_line++
            in_comment = open = 0
        } else if (in_comment || c == 35) {
            in_comment = 1
        } else if (c == 32 || (c >= 9 && c <= 13)) {
            open = 0
        } else {
            if (!open) {
                line[words] = text_line
                first[words++] = i
                open = 1
            }
            past[words - 1] = i + 1
        }
    }
    if (words == 0 || is_of_bytes()) take_hexadecimal()
    else take_instructions()
}

# Whether the text is of bytes. Its first word says so by having hexadecimal digits alone; if these are letters, as of a mistyped
# `add`, no later line may begin with an instruction.
function is_of_bytes(    k) {
    if (!is_hexadecimal(0)) return 0
    if (!begins_with_letters()) return 1
    for (k = 1; k < words; k++) if (line[k] != line[k - 1] && text_of(k) in section_of) return 0
    return 1
}

function begins_with_letters() { return text_of(0) !~ /[^A-Fa-f]/ }

function is_hexadecimal(k,    i) {
    for (i = first[k]; i < past[k]; i++) if (!(character[input[i]] in digit)) return 0
    return 1
}

function take_hexadecimal(    k, i) {
    for (k = 0; k < words; k++) {
        if (!is_hexadecimal(k)) mistake_in_bytes(k, " is not hexadecimal; expected bytes of two hexadecimal digits each")
        else if ((past[k] - first[k]) % 2) mistake_in_bytes(k, " has an odd number of digits; expected two for each byte")
        else for (i = first[k]; i < past[k]; i += 2) put(16 * digit[character[input[i]]] + digit[character[input[i + 1]]], 1, line[k])
    }
}

# What is wrong with a word, which may stand in a mistyped instruction.
function mistake_in_bytes(k, what) { mistake(line[k], line[k] == line[0] && begins_with_letters() ? neither(k) : quote(k) what) }

# Of the text's first line: its first word is not an instruction, and word k is not bytes.
function neither(k) {
    return (k == 0 ? quote(0) " is neither an instruction nor bytes" : quote(0) " is not an instruction, nor " quote(k) " bytes") \
        all_instructions() ", or bytes of two hexadecimal digits each"
}

# What was expected, which is told once.
function all_instructions() { return told_all++ ? "" : "; expected one of " instructions }

# Takes each line's instruction; then come the sections, each after its count.
function take_instructions(    k, end, name, s, i) {
    s = 0
    for (k = 0; k < words; k = end) {
        for (end = k; end < words && line[end] == line[k]; end++);
        name = text_of(k)
        if (!(name in section_of)) {
            mistake(line[k], k == 0 ? neither(0) : quote(k) " is not an instruction" all_instructions())
            continue
        }
        for (i = 0; section_named[i] != section_of[name]; i++);
        if (i < s) mistake(line[k], quote(k) " stands after a " section_named[s] "; expected every " section_of[name] " before it")
        else s = i
        take_fields(name, k, end)
        head[section_of[name], records[section_of[name]]++] = k
    }
    for (s = 0; s < sections; s++) {
        name = section_named[s]
        end = records[name] + 0
        k = end > 0 ? head[name, end - 1] : words - 1
        if (end > 65535) mistake(line[k], end " times " quote(k) "; expected at most " most_records[name])
        put(end, 2, line[k])
        for (i = 0; i < end; i++) put_record(name, head[name, i])
    }
}

# The numbers of an instruction's fields, whose words stand after word k and before word `end`.
function take_fields(name, k, end,    i, f, number, most) {
    for (i = 0; i < field_count[name]; i++) {
        f = field[name, i]
        most = 256 ^ width[section_of[name], place_of[name, f]] - 1
        if (k + 1 + i >= end) {
            mistake(line[k], "the line ends after " quote(end - 1) "; " expected(name, f, most))
            return
        }
        number = number_from(f, text_of(k + 1 + i))
        if (number < 0 || number > most) mistake(line[k], quote(k + 1 + i) " is not what was expected; " expected(name, f, most))
        value[k, place_of[name, f]] = number
    }
    if (k + 1 + i < end) mistake(line[k], quote(k + 1 + i) " stands after the last field; expected the end of the line after " form(name))
}

function put_record(s, k,    i, p) {
    for (i = 0; i < place_count[s]; i++) {
        p = place[s, i]
        put(p == "kind" ? kind_of[text_of(k)] : value[k, p], width[s, p], line[k])
    }
}

# Adds a number to the sheet, the low byte first.
function put(number, bytes, text_line) {
    for (; bytes > 0; bytes--) {
        byte[count] = number % 256
        line_of[count++] = text_line
        number = int(number / 256)
    }
}

# ---- words, numbers and messages

# A word as a string. One that is far too long for an instruction or a number is cut to a string that is neither.
function text_of(k,    i, text) {
    for (i = first[k]; i < past[k]; i++) {
        if (i - first[k] == 10 * longest_quote) return text ".."
        text = text character[input[i]]
    }
    return text
}

# A word as messages show it: other than printable characters as escapes, and cut.
function quote(k,    i, c, shown) {
    for (i = first[k]; i < past[k] && i < first[k] + longest_quote; i++) {
        c = input[i]
        shown = shown (c > 32 && c < 127 ? character[c] : sprintf("\\x%02x", c))
    }
    return "`" shown (i < past[k] ? ".." : "") "`"
}

# The number that a field's word stands for, or -1.
function number_from(f, text) {
    if ((f, text) in number_for) return number_for[f, text]
    if (text ~ /^[0-9]+$/) return from_digits(text, 10)
    if (text ~ /^0x[0-9A-Fa-f]+$/) return from_digits(substr(text, 3), 16)
    return -1
}

function from_digits(digits, base,    i, number) {
    for (i = 1; i <= length(digits); i++) number = number * base + digit[substr(digits, i, 1)]
    return number
}

function expected(name, f, most) {
    return sprintf("expected %s, %sa number from 0 to %.0f%s, as in %s", f, words_for[f], most, taken_by_a_call[f], form(name))
}

function form(name,    i, text) {
    for (i = 0; i < field_count[name]; i++) text = text " " field[name, i]
    return "`" name text "`"
}

# Tells of the first mistake of a line, unless enough are told.
function mistake(text_line, what) {
    if (mistakes > 0 && text_line == last_mistaken) return
    last_mistaken = text_line
    if (mistakes++ < most_told) say((text_line == "" ? "" : "line " text_line ": ") what)
}

function say(what) { printf "sheet: %s: %s\n", ENVIRON["NAME"], what > "/dev/stderr" }

# ---- why a sheet is broken

# The first rule that the bytes break, with its place, or nothing.
function broken(    s, name, at, n, k, why) {
    if (count == 0) return "it has no bytes"
    at = 0
    for (s = 0; s < sections; s++) {
        name = section_named[s]
        if (at + 2 > count) return ends() "in the number of " name "s"
        n = number_at(at, 2)
        if (n > most_records[name]) return spot(at) n " " name "s; a sheet has at most " most_records[name]
        at += 2
        for (k = 0; k < n; k++) {
            if (at + record_bytes[name] > count) return ends() "in " name " " k " of " n " (the first is " name " 0)"
            why = wrong_record(name, at)
            if (why != "") return spot(at) name " " k ": " why
            at += record_bytes[name]
        }
    }
    if (at < count) return spot(at) "it goes on after its last " name
}

function wrong_record(s, at,    i, p, name, number) {
    name = name_at(s, at)
    if (name == "") return "there is no kind " byte[at]
    for (i = 0; i < place_count[s]; i++) {
        p = place[s, i]
        number = number_at(at, width[s, p])
        if (number != 0 && p != "kind" && !((name, p) in uses)) return sprintf("%s does not use %s, which must be 0 and is %.0f", name, p, number)
        at += width[s, p]
    }
}

function ends() { return spot(count - 1) "it ends early, " }

# The line of a text, or the place in a binary file.
function spot(at) { return (at in line_of ? "line " line_of[at] : "byte " at) ": " }

# The bytes of the largest sheet.
function largest(    s, n) {
    for (s = 0; s < sections; s++) n += 2 + most_records[section_named[s]] * record_bytes[section_named[s]]
    return n
}

function number_at(at, bytes) { return bytes == 0 ? 0 : byte[at] + 256 * number_at(at + 1, bytes - 1) }

# The instruction of a record, or nothing. A section without kinds has one.
function name_at(s, at) { return instruction_of[s, place[s, 0] == "kind" ? byte[at] : ""] }

# ---- what is written

function write_bytes(n,    i) {
    for (i = 0; i < n; i++) printf "\\x%02x", byte[i]
}

# A line for each record, numbered as in what a run prints. A sheet without any has no instruction, so its bytes are written.
function write_text(    s, at, n, k, name) {
    if (count == 2 * sections) printf "00 00 00 00    # no mapping and no step\\n"
    at = 0
    for (s = 0; s < sections; s++) {
        name = section_named[s]
        n = number_at(at, 2)
        at += 2
        for (k = 0; k < n; k++) {
            printf "%-34s # %s%d\\n", line_for(name, at), name == "step" ? "" : substr(name, 1, 1), k
            at += record_bytes[name]
        }
    }
}

function line_for(s, at,    i, p, name, f, number, value_at, text) {
    text = name = name_at(s, at)
    for (i = 0; i < place_count[s]; i++) {
        p = place[s, i]
        value_at[p] = number_at(at, width[s, p])
        at += width[s, p]
    }
    for (i = 0; i < field_count[name]; i++) {
        f = field[name, i]
        number = value_at[place_of[name, f]]
        text = text " " ((f, number) in word_of ? word_of[f, number] : sprintf("%.0f", number))
    }
    return text
}
