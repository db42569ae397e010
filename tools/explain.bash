# To be sourced by ./walk, whose `crate` is the program that has run: why an input was refused, in the words of include/reasons.txt,
# and what is likely wrong with it, one line each.
# The program has read standard input by then. Where that is a file its bytes are looked at once more; those of a pipe are gone.
# A hint is given for what is seen in the bytes only; else it tells the usual causes.

export LC_ALL=C # a byte is a byte
most_read=65537 # the program reads no more: one byte over the limit
sheet=(seed flips walks bias)
ranges=('1 to 4294967295' '0 to 100000' '1 to 1000' '0 to 1000')
choice_line=choice=even # which may follow

# The bytes that the program was given, nothing where they are gone; `from` is the place in the file where it began to read.
input() {
    [ -z "$from" ] || tail -c "+$((from + 1))" /dev/fd/0 2>/dev/null | head -c "$most_read"
}

line_of_input() { # NUMBER
    input | tail -n "+$1" | head -n 1
}

# How many lines the sheet has.
sheet_lines() {
    if [ "$(line_of_input "$((${#sheet[@]} + 1))" | tr '\0' x)" = "$choice_line" ]; then echo $((${#sheet[@]} + 1)); else echo "${#sheet[@]}"; fi
}

# The number in the whole input of a line of the clause text, which begins after the sheet.
text_at() { # LINE
    echo $(($(sheet_lines) + $1))
}

numbers() {
    od -An -v -tu1
}

# One line of the input into `bytes`, as numbers, its byte 10 too.
take_line() { # NUMBER
    read -r -d '' -a bytes < <(line_of_input "$1" | numbers) || true
}

begins_with() { # NUMBERS
    [[ "${bytes[*]} " == "$* "* ]]
}

ends_with() { # NUMBERS
    [[ " ${bytes[*]}" == *" $*" ]]
}

# That of UTF-8, or of 16 bits in either order.
begins_with_mark() {
    begins_with 239 187 191 || begins_with 255 254 || begins_with 254 255
}

plain_line_ends() {
    echo "save the file with plain line ends, or run: tr -d '\\r' < $file | ./walk"
}

name_byte() { # NUMBER
    case $1 in
    9) echo 'a tab' ;;
    13) echo 'a carriage return' ;;
    32) echo 'a space' ;;
    126) echo 'a ~' ;;
    *) if [ "$1" -gt 127 ]; then printf 'outside ASCII (hex %02x)' "$1"; else printf 'a control byte (hex %02x)' "$1"; fi ;;
    esac
}

# What would have been right in clause text where that byte stands.
right_in_text() { # NUMBER
    case $1 in
    9) echo 'names are separated by spaces' ;;
    13) plain_line_ends ;;
    126) echo 'it stands before a name, not inside one' ;;
    *) echo 'a name has bytes from ! to } only' ;;
    esac
}

# The first byte of a line of clause text that may not stand there: ~ may where a literal begins.
odd_in_text() {
    local byte before=32 place=0
    for byte in "${bytes[@]}"; do
        place=$((place + 1))
        [ "$byte" -ne 10 ] || return 0
        if [ "$byte" -lt 32 ] || [ "$byte" -gt 126 ] || { [ "$byte" -eq 126 ] && [ "$before" -ne 32 ]; }; then
            echo "byte $place of the line is $(name_byte "$byte"): $(right_in_text "$byte")"
            return
        fi
        before=$byte
    done
}

# The first byte of a line of the sheet that is no printed character of ASCII.
odd_in_sheet() { # WHAT MAY STAND THERE
    local byte place=0
    for byte in "${bytes[@]}"; do
        place=$((place + 1))
        [ "$byte" -ne 10 ] || return 0
        if [ "$byte" -lt 33 ] || [ "$byte" -gt 126 ]; then
            echo "byte $place of the line is $(name_byte "$byte"): nothing but $1 may stand there"
            return
        fi
    done
}

# The hint for each reason that has one, on one line.

hint_cut() {
    local lines
    if [ -n "$(input | tail -c 1 | tr '\0' x)" ]; then
        lines=$(input | wc -l)
        echo "line $((lines + 1 - $(sheet_lines))) of the clause text, the last, does not end with byte 10 (a line feed); to add it, run: echo >> $file"
    else
        echo 'usual causes: the last line was saved without a line feed, or the input was cut short'
    fi
}

hint_byte() { # LINE
    local hint
    take_line "$(text_at "$1")"
    if begins_with_mark; then
        hint="line $1 of the clause text begins with a byte order mark: save the file as plain text without one"
    else
        hint=$(odd_in_text)
    fi
    echo "${hint:-usual causes: a carriage return at the end of the line, a tab, a ~ inside a name, a byte outside ASCII}"
}

# A name's first nine bytes are from ! to }, so they can be shown.
hint_name() { # LINE
    local name
    name=$(line_of_input "$(text_at "$1")" | grep -aoE '[!-}]{9}' | head -n 1)
    [ -z "$name" ] || echo "it is the name that begins with $name"
}

# What is seen to be wrong with a line of the sheet, if it begins so: a byte that is not one of those that may stand there, or its end.
fault_in_sheet() { # LINE BEGINNING WHAT MAY STAND THERE
    local fault=''
    if ends_with 13 10; then
        fault="line $1 of the sheet ends with a carriage return: $(plain_line_ends)"
    elif begins_with $(printf %s "$2" | numbers); then # each number a word
        fault=$(odd_in_sheet "$3")
        [ -n "$fault" ] || ends_with 10 || fault="line $1 of the sheet does not end with byte 10 (a line feed)"
    fi
    echo "$fault"
}

hint_form() { # LINE
    local key=${sheet[$1 - 1]}= hint=''
    local form="line $1 of the sheet must be $key and a number"
    take_line "$1"
    if [ -z "$from" ]; then
        hint="$form; usual causes: carriage returns, a byte order mark, a space, a line left out, an input that is empty or cut short"
    elif [ "${#bytes[@]}" -eq 0 ]; then
        hint="the input ends before it: $form"
    elif [ "$1" -eq 1 ] && begins_with_mark; then
        hint="the file begins with a byte order mark: save it as plain text without one"
    else
        hint=$(fault_in_sheet "$1" "$key" "$key and digits")
    fi
    echo "${hint:-$form of 1 to 10 digits, with no 0 before them}"
}

# The fifth line, which begins with choice= and is not the one that may stand there.
hint_choice() { # LINE
    local hint
    take_line "$1"
    hint=$(fault_in_sheet "$1" "$choice_line" "$choice_line")
    echo "${hint:-line $1 of the sheet is $choice_line or left out; a clause in its place that begins with choice= needs a space before it}"
}

# ---- numbered files, which ./walk has put after a sheet: what files from elsewhere often have

# The hint for a line with a carriage return at its end.
hint_returns() { # LINE
    if ends_with 13 10; then
        echo "line $1 of the file ends with a carriage return: to take them out, run: tr -d '\\r' < $file > MENDED"
    fi
}

hint_header() { # LINE
    local hint=''
    if [ "$1" -eq 0 ]; then
        echo "before the end of the file there is no line p cnf V C, only lines that begin with c"
        return
    fi
    take_line "$(text_at "$1")"
    hint=$(hint_returns "$1")
    if [ -z "$hint" ] && { ends_with 32 10 || ends_with 9 10; }; then
        hint="line $1 of the file has blanks after the header's second number: to take them out, run: sed '/^p/s/[[:blank:]]*\$//' $file > MENDED"
    fi
    echo "${hint:-line $1 of the file must be p cnf V C, two numbers with nothing after them; before it only lines that begin with c may stand}"
}

hint_number() { # LINE
    local hint=''
    take_line "$(text_at "$1")"
    hint=$(hint_returns "$1")
    if [ -z "$hint" ] && begins_with 37; then
        hint="line $1 of the file begins with %, as the last lines of some collections do: to take it and what follows out, run: sed '/^%/,\$d' $file > MENDED"
    elif [ -z "$hint" ] && begins_with 99; then
        hint="line $1 of the file is a comment, and comments may stand before the header only; to take them out, run: sed '/^p/,\${/^c/d;}' $file > MENDED"
    fi
    echo "${hint:-a number is an optional minus and 1 to 10 digits, with no 0 before them, and stands between spaces, tabs or line ends}"
}

hint_count() { # LINE
    if [ "$1" -eq 0 ]; then
        echo "there are fewer clauses than the header says, or the last one has no 0 at its end"
    else
        echo "a clause ends there past the header's number of clauses; usual cause: a line 0 after a line %, which some collections have at the end"
    fi
}

hint_numbered() { # REASON LINE
    case $1 in
    3) echo "the last line does not end with byte 10 (a line feed); to add it, run: echo >> $file" ;;
    4) hint_number "$2" ;;
    6) echo "there may be at most 2,048 variables" ;;
    9) echo "the file has no clause, or every clause is true in any case" ;;
    15) echo "a clause of 0 alone can be covered by nothing" ;;
    16) hint_header "$2" ;;
    17) hint_count "$2" ;;
    18) echo "the header of the file says how many variables there are, its first number: the number on that line is above it" ;;
    *) hint_own "$1" "$2" ;;
    esac
}

hint() { # REASON LINE
    if [ "$crate" = cnf ]; then hint_numbered "$1" "$2"; else hint_own "$1" "$2"; fi
}

hint_own() { # REASON LINE
    case $1 in
    2) echo "an input has at most 65,536 bytes, the lines of the sheet among them" ;;
    3) hint_cut ;;
    4) hint_byte "$2" ;;
    5) hint_name "$2" ;;
    6) echo "there may be at most 2,048 terms" ;;
    7) echo "there may be at most 16,384 literals, those of all clauses together" ;;
    8) echo "there may be at most 8,192 clauses" ;;
    9) echo "every line after the sheet is a comment or true in any case, or there is none" ;;
    10) if [ "$2" -gt "${#sheet[@]}" ]; then hint_choice "$2"; else hint_form "$2"; fi ;;
    11) echo "${sheet[$2 - 1]}= takes a number from ${ranges[$2 - 1]}" ;;
    15) echo "name there what is missing, or take the line out; a line of ~ alone says nothing" ;;
    esac
}

words_of() { # REASON
    local number words
    while IFS=$'\t' read -r number _ words; do
        if [ "$number" = "$1" ]; then echo "$words"; fi
    done <"$root/include/reasons.txt"
}

where() { # REASON LINE
    case $1:$2 in
    *:0) ;;
    10:* | 11:*) echo ", line $2 of the sheet" ;;
    *) if [ "$crate" = cnf ]; then echo ", line $2 of the file"; else echo ", line $2 of the clause text"; fi ;;
    esac
}

explain() { # REASON LINE
    local hint
    say "refused: $(words_of "$1") (reason $1)$(where "$1" "$2")"
    hint=$(hint "$1" "$2")
    [ -z "$hint" ] || say "$hint"
}
