# What tests/rows.sh runs: docs/ROWS.md, line by line, against the definitions, the code's labels and the cases. Its files, by name:
# specs/Numbers.antt, Perform.antt, Rows.antt, Find.antt, Tried.antt, src/lib.rt, src/rows.rt, docs/ROWS.md, and files of cases.

function wrong(text) { print "rows: " text; faults++ }

# ---- Words

# The labels that a text names go to found[1..]; "O6 to O8" is three of them.
function labels(text,   n, i, word, letter, from, last, number) {
    gsub(/[,;:|()]/, " ", text)
    n = split(text, word, /[ \t]+/)
    count = 0
    for (i = 1; i <= n; i++) {
        if (word[i] !~ /^[GOD][0-9]+$/) continue
        letter = substr(word[i], 1, 1)
        from = last = substr(word[i], 2) + 0
        if (i + 2 <= n && word[i + 1] == "to" && word[i + 2] ~ /^[GOD][0-9]+$/) last = substr(word[i + 2], 2) + 0
        for (number = from; number <= last; number++) found[++count] = letter number
        if (last != from) i += 2
    }
    return count
}

function comment_of(line) { return line ~ /--/ ? substr(line, index(line, "--") + 2) : "" }
function code_of(line) { sub(/ *--.*/, "", line); return line }
function trim(text) { sub(/^[ \t]+/, "", text); sub(/[ \t]+$/, "", text); return text }
function bare(text) { gsub(/`/, "", text); return text }

# WaitSetupConf is WAIT-SETUP-CONF.
function shown(name) { gsub(/[A-Z]/, "-&", name); sub(/^-/, "", name); return toupper(name) }

# ---- A plan, computed from its line

# The arguments of an expression go to argument[0..]; an argument in parentheses loses them.
function arguments(text,   n, i, part, depth, at) {
    gsub(/[()]/, " & ", text)
    n = split(trim(text), part, / +/)
    for (i in argument) delete argument[i]
    at = -1
    for (i = 1; i <= n; i++) {
        if (part[i] == "(" && depth++ == 0) { argument[++at] = ""; continue }
        if (part[i] == ")" && --depth == 0) { argument[at] = trim(argument[at]); continue }
        if (depth > 0) argument[at] = argument[at] " " part[i]
        else argument[++at] = part[i]
    }
    return at
}

# An expression with the names of a line's left side replaced by what it is given.
function filled(line, text,   n, i, names, part, out, m) {
    n = split(left_of[line], names, / +/)
    for (i = 2; i <= n; i++) given[names[i]] = argument[i - 1] ~ / / ? "(" argument[i - 1] ")" : argument[i - 1]
    gsub(/[()]/, " & ", text)
    m = split(trim(text), part, / +/)
    for (i = 1; i <= m; i++) out = out " " (part[i] in given ? given[part[i]] : part[i])
    for (i in given) delete given[i]
    return out
}

# A right side worked out until it is a `row`: its twelve arguments stand in argument[1..12], what it needs in needed.
function plan(text,   at, line, rounds) {
    needed = ""
    for (rounds = 0; rounds < 9; rounds++) {
        arguments(text)
        if (argument[0] == "row") return 1
        if (argument[0] == "needs") { needed = argument[1]; text = argument[2]; continue }
        if (heads[argument[0]] != 1) return 0
        line = one_line[argument[0]]
        text = filled(line, right_of[line])
    }
    return 0
}

function value(text) {
    text = trim(text)
    if (text in number) return number[text]
    if (text == "t.error") return "error"
    if (text == "t.cause") return "cause"
    return text
}

function component_words(text,   part) {
    if (split(text, part, / +/) != 2 || part[1] == "Absent") return ""
    if (part[1] == "Error") return " ERROR " value(part[2])
    return " " toupper(part[1]) " " operation[value(part[2])]
}

function parts_words(text,   n, i, part, sum, out) {
    n = split(text, part, / *\+ */)
    for (i = 1; i <= n; i++) sum += value(part[i])
    if (sum % 2 >= 1) out = out " TRANSFER"
    if (sum % 4 >= 2) out = out " ACCEPTED"
    if (sum % 8 >= 4) out = out " AS-TRANSFER"
    if (sum % 16 >= 8) out = out " PARTIAL"
    if (sum % 32 >= 16) out = out " CALLING own"
    if (sum % 64 >= 32) out = out " CALLED own"
    if (sum % 128 >= 64) out = out " DURATION caller\047s"
    return out
}

# Outside ANSWERED nobody pays (specs/Valid.antt, paying_of), and so nothing is stopped.
function act_words(act, charged) {
    if (act == "Nothing") return ""
    if (act == "Stop") return charged ? "[STOP]" : ""
    if (act == "AccessError") return "ACCESS ERROR " value(argument[11])
    if (act == "AccessRel") return "ACCESS REL " value(argument[12])
    if (act == "SendRel") return "REL " value(argument[12]) component_words(argument[9]) parts_words(argument[10])
    if (act ~ /^Send/) return toupper(substr(act, 5)) component_words(argument[9]) parts_words(argument[10])
    act = shown(act)
    sub(/-/, " ", act)
    return act
}

function answer_words(charged,   i, words, out) {
    for (i = 5; i <= 8; i++) if ((words = act_words(argument[i], charged)) != "") out = out (out == "" ? "" : "; ") words
    return out == "" ? "none" : out
}

function follow_words(   out) {
    if (!(argument[2] in stands_next)) wrong("specs/Perform.antt has no stand_of " argument[2])
    out = stands_next[argument[2]]
    if (argument[3] in pays) out = out ", " pays[argument[3]]
    else if (argument[3] != "Keep") wrong("no words for " argument[3])
    if (argument[4] in registers) out = out ", " registers[argument[4]]
    else if (argument[4] != "AsHeld") wrong("no words for " argument[4])
    return out
}

# The conditions that a definition's alternative has, for a Row: the words of each constructor on its left side, in their order.
function condition_words(line, row,   n, i, part, from, out, key) {
    n = split(left_of[line], part, / +/)
    arguments(plan_line[row])
    for (i = 2; i <= n; i++) {
        from = argument[i - 1]
        if (part[i] !~ /^[A-Z]/ || from !~ /^t\./) continue
        key = substr(from, 3) SUBSEP part[i]
        if (key in condition) out = out "; " condition[key]
        else wrong("no words for " part[i] " of " substr(from, 3))
    }
    return out
}

BEGIN {
    operation[1] = "SETUP"; operation[2] = "ACTIVE"; operation[3] = "CALLED"

    pays["Begin"] = "meters and total 0"
    pays["CallerPays"] = "caller pays"
    pays["CalledPays"] = "called pays"
    pays["FarPays"] = "far exchange pays"
    pays["NobodyPays"] = "nobody pays"
    pays["EntireToCalled"] = "called pays the entire call"
    pays["EntireToFar"] = "far exchange pays the entire call"
    pays["DurationReceived"] = "called pays the Duration and what follows"
    pays["TimePasses"] = "the payer pays these seconds"
    registers["FromOpening"] = "own number registered"
    registers["CalledNumber"] = "called number registered"
    registers["CallingNumber"] = "calling number registered"

    # what a row looks at (the field of Terms, and its word)
    condition["interaction", "Allowed"] = "interaction allowed"
    condition["interaction", "NotAllowed"] = "interaction not allowed"
    condition["judged", "Passed"] = "checks passed"
    condition["judged", "NotSubscribed"] = "not subscribed"
    condition["judged", "InteractionNotAllowed"] = "interaction not allowed"
    condition["mode", "Transfer"] = "Transfer Mode"
    condition["mode", "NoTransfer"] = "No Transfer Mode"
    condition["taken", "Transfer"] = "transfer requested, and Transfer Mode"
    condition["taken", "NoTransfer"] = "transfer not requested, or No Transfer Mode"
    condition["accepted", "Transfer"] = "transfer requested and accepted"
    condition["accepted", "NoTransfer"] = "transfer not requested, or not accepted"
    condition["agreed", "Transfer"] = "transfer agreed"
    condition["agreed", "NoTransfer"] = "no transfer agreed"
    condition["extent", "Rest"] = "partial call"
    condition["extent", "Entire"] = "entire call"
    condition["asked", "Rest"] = "case B asked for"
    condition["asked", "Entire"] = "case C asked for"
    condition["service", "OnRequest"] = "no case D"
    condition["service", "Unconditional"] = "case D"
    condition["correct", "Correct"] = "correct for REV"
    condition["correct", "Incorrect"] = "not correct for REV"
    needs_words["called"] = "needs called number, or transfer requested"
    needs_words["calling"] = "needs calling number"
    needs_words["calling && duration"] = "needs calling number and Duration"

    # an event: its kind, and what is looked at of it
    kind["Opens"] = "opening"; kind["Asks"] = "own request "; kind["Iam"] = "IAM, "; kind["Answer"] = "ANM or CON, "
    kind["Rel"] = "REL, "; kind["Fac"] = "FAC, "; kind["Tells"] = "access: "; kind["Expires"] = "expiry"; kind["Passes"] = "time"
    looks["basic"] = "0"; looks["casea"] = "A"; looks["caseb"] = "B"; looks["casec"] = "C"; looks["reversal"] = "A, B or C"
    looks["alone"] = "no component"; looks["failure"] = "error"; looks["rejection"] = "reject"; looks["invoke"] = "any invoke"
    looks["invokesetup"] = "invoke SETUP"; looks["invokeactive"] = "invoke ACTIVE"; looks["invokecalled"] = "invoke CALLED"
    looks["resultsetup"] = "result SETUP"; looks["resultactive"] = "result ACTIVE"; looks["resultcalled"] = "result CALLED"
    looks["accepts"] = "accept"; looks["refuses"] = "error"; looks["rejects"] = "reject"; looks["clears"] = "clear"
    looks["answers"] = "answer without REV"

    for (i = 1; i <= 5; i++) every[++rows] = "G" i
    for (i = 1; i <= 40; i++) every[++rows] = "O" i
    for (i = 1; i <= 60; i++) every[++rows] = "D" i
    for (i = 1; i <= rows; i++) is_row[every[i]] = 1
}

# ---- The definitions

FNR == 1 { name = FILENAME; sub(/.*\//, "", name); above = ""; line = 0; inside = ""; pending = "" }

name == "Numbers.antt" && /^[a-z_]+ = [0-9]+$/ { number[$1] = $3; next }

# stand_of ToWaitAnswer now = at Setup WaitAnswer false false
name == "Perform.antt" && /^stand_of Stay / { stands_next["Stay"] = "the same"; next }
name == "Perform.antt" && /^stand_of [A-Z]/ {
    stands_next[$2] = toupper($6) " " shown($7)
    agreed = $8 == "true" ? ", transfer agreed" : ", no transfer agreed"
    asked = $9 == "true" ? ", case B asked for" : ", case C asked for"
    if ($7 ~ /^(WaitAnswer|WaitSetupConf|WaitActiveConf)$/) stands_next[$2] = stands_next[$2] agreed
    if ($6 == "Answered" && $7 == "WaitCalled") stands_next[$2] = stands_next[$2] asked
    next
}

# specs/Rows.antt: each alternative, with the comments above it and beside it
name == "Rows.antt" && /^--/ { above = above " " comment_of($0); next }
name == "Rows.antt" && (/^$/ || /^abbrev/) { above = ""; line = 0; next }
name == "Rows.antt" && /^[a-z][a-z_]* .*=|^[a-z][a-z_]* =/ && !/^row / {
    line = ++lines
    left_of[line] = code_of($0); sub(/ =.*/, "", left_of[line])
    right_of[line] = code_of($0); sub(/^[^=]*= */, "", right_of[line])
    text_of[line] = trim(above) " " trim(comment_of($0))
    above = ""
    heads[$1]++
    one_line[$1] = line
    if ($1 == "plan_of") { plan_at[$2] = line; plan_line[$2] = right_of[line] }
    next
}
name == "Rows.antt" && line && /^ / { right_of[line] = right_of[line] " " trim(code_of($0)); next }

# specs/Find.antt: one alternative a line, with its labels and sentences
name == "Find.antt" && /^-- (originating|destination|both roles|before)/ { place = substr($0, 4); next }
name == "Find.antt" && /^abbrev pub .* : Kind / { place_of[$3] = place; table = $3; next }
name == "Find.antt" && /^abbrev/ { table = ""; next }
name == "Find.antt" && table != "" && /^[a-z_]+_of [A-Z][a-z]+ e =/ {
    now = $2
    if (!(now in kind)) wrong("specs/Find.antt has the kind " now)
}
name == "Find.antt" && table != "" && (/^ / || /^[a-z_]+_of [A-Z][a-z]+ e =/) {
    code = code_of($0)
    sub(/^[a-z_]+_of [A-Z][a-z]+ e =/, "", code)
    test = ""
    if (match(code, /[ (]e\.[a-z]+\.[a-z]+/)) {
        test = substr(code, RSTART, RLENGTH)
        sub(/.*\./, "", test)
        code = substr(code, RSTART + RLENGTH)
        if (code ~ /[ (]e\./) wrong("specs/Find.antt, " table " " now ": two alternatives on a line")
    }
    row = ""
    n = split(code, part, /[ ()]+/)
    for (i = 1; i <= n; i++) if (part[i] ~ /^[A-Z]/ && part[i] !~ /^(Some|None)$/ && row == "") row = part[i]
    n = labels(comment_of($0))
    if (row == "" && n) wrong("specs/Find.antt, " table " " now ": " found[1] " beside no row")
    if (row == "") next
    if (n == 0) wrong("specs/Find.antt, " table " " now ": no label for " row)
    for (i = 1; i <= n; i++) {
        finds[found[i], table] = 1
        found_word[found[i], row] = 1
        find_text[found[i], table] = find_text[found[i], table] " " comment_of($0)
        answers_kind[table, now, test == "clears" ? "clears" : ""] = 1
        key = now SUBSEP (test != "" ? looks[test] : now == "Rel" ? "any component" : "")
        if (test != "" && !(test in looks)) wrong("specs/Find.antt, " table " " now ": no words for " test)
        if (!((found[i], key) in seen)) {
            seen[found[i], key] = 1
            split(key, part, SUBSEP)
            if (!(found[i] in event_of)) event_of[found[i]] = kind[now] part[2]
            else if (kind_of[found[i]] != now) wrong("specs/Find.antt: " found[i] " is both " now " and " kind_of[found[i]])
            else event_of[found[i]] = event_of[found[i]] " or " part[2]
            kind_of[found[i]] = now
        }
    }
    next
}

# specs/Tried.antt: the names of its theorems, and whether STOP is among what one says
name == "Tried.antt" && /^[a-z][a-z_]* : / { theorem = $1; tried[theorem] = 0 }
name == "Tried.antt" && /^$/ { theorem = "" }
name == "Tried.antt" && theorem != "" && /does Stop/ { tried[theorem] = 1 }

# ---- The code's labels

name == "lib.rt" && /^pub enum Row / { inside = "Row"; next }
name == "lib.rt" && /^}/ { inside = "" }
name == "lib.rt" && inside != "" && /^ *\/\// { pending = pending " " $0; next }
name == "lib.rt" && inside != "" {
    row = $1; sub(/,/, "", row)
    variant[row] = 1
    n = labels(pending)
    for (i = 1; i <= n; i++) in_enum[found[i], row]++
    pending = ""
}

name == "rows.rt" && /^ *\/\/ / { n = labels($0); for (i = 1; i <= n; i++) pending = pending " " found[i]; next }
name == "rows.rt" && /(^| )fn [a-z_]+\(/ { inside = $0; sub(/.*fn /, "", inside); sub(/\(.*/, "", inside) }
name == "rows.rt" && pending != "" { arms[inside] = arms[inside] pending; pending = "" }
name == "rows.rt" && inside == "plan_of" && /Row::[A-Za-z]+ =>/ { row = $0; sub(/.*Row::/, "", row); sub(/ =>.*/, "", row) }
name == "rows.rt" && inside == "plan_of" && /, \/\/ / {
    n = labels(substr($0, index($0, "//")))
    for (i = 1; i <= n; i++) in_code[found[i], row]++
}

# ---- The page

name == "ROWS.md" && /^## / { role = tolower($2); heading = ""; lists = /^## Where each sentence/; next }
name == "ROWS.md" && /^### / { heading = substr($0, 5); next }
name == "ROWS.md" && /^\| [GOD][0-9]+ \|/ {
    if (split($0, column, / *\| */) != 10) wrong("docs/ROWS.md: " $2 " has not eight columns")
    label = column[2]
    if (label in event) { wrong("docs/ROWS.md has " label " twice"); next }
    if (!(label in is_row)) wrong("docs/ROWS.md has a row " label ", which is none of the " rows)
    event[label] = column[3]; answer[label] = bare(column[4]); follow[label] = column[5]; sentence[label] = column[6]
    words[label] = column[7]; definition[label] = bare(column[8]); proof[label] = column[9]
    split(heading, part, /: `|`/)
    table_of[label] = part[2]; stand_of[label] = part[1]; role_of[label] = role
    next
}
# - G4 is found by `wait_setup_of`, .., on a line and those that go on with it
name == "ROWS.md" && /^- G[0-9] is found by / { both = $2 }
name == "ROWS.md" && !/^(- G|  )/ { both = "" }
name == "ROWS.md" && both != "" {
    n = split($0, part, /`/)
    for (i = 2; i <= n; i += 2) both_at[both, part[i]] = 1
    next
}
# where each sentence went: clause: item labels; item labels. clause: ..; a clause of 001, or a request of 02
name == "ROWS.md" && lists && /^- (3\.5\.2\.|02 #)/ {
    text = substr($0, 3)
    gsub(/\. 3\.5\.2/, "; 3.5.2", text)
    sub(/\.$/, "", text)
    n = split(text, segment, / *; */)
    for (i = 1; i <= n; i++) {
        if (match(segment[i], /^(3\.5\.2\.[1-5]\.[15]\.[12]|02 #[0-9]+): */)) {
            clause = substr(segment[i], 1, RLENGTH)
            sub(/:.*/, "", clause)
            listed[clause]++
            segment[i] = substr(segment[i], RLENGTH + 1)
        }
        item = segment[i]
        gsub(/ *[GOD][0-9]+,?/, "", item)
        m = labels(segment[i])
        for (j = 1; j <= m; j++) {
            if ((found[j], clause) in went) wrong("docs/ROWS.md: " clause " went to " found[j] " twice")
            went[found[j], clause] = item
        }
    }
    next
}

# ---- The cases

name ~ /\.txt$/ && /^## / { this = substr($0, 4); if (cases[this]++) twice[this] = 1; part_of = 1; at = shows = 0; next }
name ~ /\.txt$/ && part_of == 1 && $0 == "=" { part_of = 2; next }
name ~ /\.txt$/ && part_of == 1 { record[this, ++at] = $0; next }
name ~ /\.txt$/ && $0 == "" { part_of = 0; next }
name ~ /\.txt$/ && part_of == 2 && /^[0-9]/ { shows = $1; listing[this, shows] = $0; next }
name ~ /\.txt$/ && part_of == 2 && /^> / {
    does[this, shows] = does[this, shows] (does[this, shows] == "" ? "" : "; ") substr($0, 3)
    next
}

# ---- The comparison

# The labels that a line of specs/Rows.antt names, and the text of each: from its labels up to the next ones.
function read_comment(line,   n, i, j, segment, m) {
    n = split(text_of[line], segment, /;/)
    for (i = 1; i <= n; i++) {
        if (trim(segment[i]) ~ /^[GOD][0-9]+([ ,]|$)/) {
            m = labels(segment[i])
            held = ""
            for (j = 1; j <= m; j++) {
                held = held " " found[j]
                if ((found[j], line) in says) wrong("specs/Rows.antt, " left_of[line] ": " found[j] " twice")
                named[line] = named[line] " " found[j]
            }
        } else if (i == 1) held = ""
        m = split(trim(held), of, / /)
        for (j = 1; j <= m; j++) says[of[j], line] = says[of[j], line] " " segment[i]
    }
}

# Whether each word of a sentence stands in a text.
function within(part, text,   n, i, word) {
    gsub(/[,;"()]/, " ", part); gsub(/[,;"()]/, " ", text)
    n = split(trim(part), word, / +/)
    for (i = 1; i <= n; i++) if (word[i] != "" && index(" " text " ", " " word[i] " ") == 0) return word[i]
    return ""
}

function clauses_of(text,   n, i, part, out) {
    n = split(text, part, /[ ,;]+/)
    for (i = 1; i <= n; i++) if (part[i] ~ /^(3\.5\.2\.|#[0-9])/) out = out " " part[i]
    return out
}

function check_row(label,   n, i, j, line, hits, head, row, part, list, miss, charged, place, key, m, name) {
    # where it stands, and what finds it
    n = split(words[label], list, /, */)
    if (label ~ /^G/) {
        if (role_of[label] != "both") wrong("docs/ROWS.md has " label " under another role")
    } else {
        if (role_of[label] != (label ~ /^O/ ? "originating" : "destination")) wrong("docs/ROWS.md has " label " under another role")
        if (!((label, table_of[label]) in finds)) wrong("specs/Find.antt does not find " label " in " table_of[label])
        place = place_of[table_of[label]]
        sub(/^both roles/, role_of[label], place)
        if (place ~ /NULL$/) place = place ", IDLE"
        if (place != role_of[label] ", " stand_of[label])
            wrong("docs/ROWS.md has " table_of[label] " at " stand_of[label] ", specs/Find.antt at " place)
        for (name in place_of)
            if (name != table_of[label] && (label, name) in finds) wrong("specs/Find.antt finds " label " in " name " too")
    }
    for (i = 1; i <= n; i++) {
        if (!((label, list[i]) in found_word)) wrong("specs/Find.antt finds no " list[i] " for " label)
        if (in_enum[label, list[i]] != 1) wrong("src/lib.rt does not name " label " once at " list[i])
        if (in_code[label, list[i]] != 1) wrong("src/rows.rt does not name " label " once at Row::" list[i])
        if (!(list[i] in plan_at)) { wrong("specs/Rows.antt has no plan_of " list[i]); return }
        if (says[label, plan_at[list[i]]] == "") wrong("specs/Rows.antt, plan_of " list[i] " does not name " label)
        is_word[label, list[i]] = 1
    }
    row = list[1]

    # the line of its definition
    split(definition[label], part, / /)
    head = part[1]
    for (i = 1; i <= lines; i++) if (index(left_of[i] " ", definition[label] " ") == 1) { hits++; line = i }
    if (hits != 1) { wrong("specs/Rows.antt has " hits + 0 " lines " definition[label] " for " label); return }
    if (says[label, line] == "") { wrong("specs/Rows.antt, " left_of[line] " does not name " label); return }
    if (head == "plan_of" ? part[2] != row : (arguments(plan_line[row]) < 0 || argument[0] != head))
        wrong("specs/Rows.antt: plan_of " row " is not " definition[label] ", as " label " has it")
    if ((miss = within(sentence[label], says[label, line])) != "")
        wrong("docs/ROWS.md has \"" miss "\" in the sentence of " label ", specs/Rows.antt, " left_of[line] " not")
    for (name in place_of) if ((label, name) in finds && (miss = within(clauses_of(sentence[label]), find_text[label, name])) != "")
        wrong("specs/Find.antt has " label " without " miss)

    # its event and conditions, its answer, what follows
    if (head == "plan_of") key = event_of[label]
    else key = event_of[label] condition_words(line, row)
    if (!plan(right_of[line])) { wrong("specs/Rows.antt, " left_of[line] ": no plan"); return }
    if (needed != "") key = key "; " needs_words[needed]
    if (event[label] != key) wrong(label ": the definitions say \"" key "\", docs/ROWS.md \"" event[label] "\"")
    charged = label == "G4" || label == "G5" || stand_of[label] ~ /^ANSWERED/
    key = answer_words(charged)
    if (answer[label] != key) wrong(label ": the definitions answer \"" key "\", docs/ROWS.md \"" answer[label] "\"")
    key = follow_words()
    if (follow[label] != key) wrong(label ": by the definitions follows \"" key "\", in docs/ROWS.md \"" follow[label] "\"")
}

# ---- A case against its row

function byte(text, at) {
    return (index("0123456789abcdef", substr(text, 2 * at - 1, 1)) - 1) * 16 + index("0123456789abcdef", substr(text, 2 * at, 1)) - 1
}
function bit(sum, part) { return int(sum / part) % 2 }

# the digits of a number of nine bytes
function digits(text, at,   i, v, out) {
    for (i = 8; i >= 1; i--) v = v * 256 + byte(text, at + i)
    out = sprintf("%.0f", v)
    while (length(out) < byte(text, at)) out = "0" out
    return out
}

# whether a condition holds: by the flags, the record, and what the records before it made pending
function holds(text, flags, error, parts, agreed, asked) {
    if (text == "interaction allowed") return bit(flags, 8)
    if (text == "interaction not allowed") return !bit(flags, 8)
    if (text == "not subscribed") return bit(flags, 2) && !bit(flags, 4)
    if (text == "checks passed") return (!bit(flags, 2) || bit(flags, 4)) && bit(flags, 8)
    if (text == "Transfer Mode") return bit(flags, 1)
    if (text == "No Transfer Mode") return !bit(flags, 1)
    if (text == "transfer requested, and Transfer Mode") return bit(flags, 1) && bit(parts, 1)
    if (text == "transfer not requested, or No Transfer Mode") return !(bit(flags, 1) && bit(parts, 1))
    if (text == "transfer requested and accepted") return bit(flags, 1) && bit(parts, 2) && bit(parts, 4)
    if (text == "transfer not requested, or not accepted") return !(bit(flags, 1) && bit(parts, 2) && bit(parts, 4))
    if (text == "partial call") return bit(parts, 8)
    if (text == "entire call") return !bit(parts, 8)
    if (text == "case D") return bit(flags, 16)
    if (text == "no case D") return !bit(flags, 16)
    if (text == "correct for REV") return error >= 4 && error <= 12
    if (text == "not correct for REV") return error < 4 || error > 12
    if (text == "needs called number, or transfer requested") return bit(parts, 32) || bit(parts, 1)
    if (text == "needs calling number") return bit(parts, 16)
    if (text == "needs calling number and Duration") return bit(parts, 16) && bit(parts, 64)
    if (text == "transfer agreed") return agreed
    if (text == "no transfer agreed") return !agreed
    if (text == "case B asked for") return asked == 2
    if (text == "case C asked for") return asked == 3
    return 0
}

# the event of a record, in the page's words
function event_words(text,   k, component, word) {
    k = byte(text, 3)
    if (k == 1) return "opening"
    if (k == 2) return "own request " substr("0ABC", byte(text, 5) + 1, 1)
    if (k == 3) {
        split("IAM,ANM or CON,ANM or CON,REL,FAC", word, /,/)
        split("invoke " operation[byte(text, 8)] ",result " operation[byte(text, 8)] ",error,reject", component, /,/)
        component[0] = "no component"
        return word[byte(text, 5)] ", " component[byte(text, 7)]
    }
    split("accept,error,reject,clear,answer without REV", word, /,/)
    if (k == 4) return "access: " word[byte(text, 5)]
    return k == 5 ? "expiry" : "time"
}

# whether a record's event is one that the page names
function same_event(text, page,   n, i, one) {
    if (page == "REL, any component") return text ~ /^REL, /
    if (page == "FAC, any invoke") return text ~ /^FAC, invoke /
    if (page == "own request A, B or C") return text ~ /^own request [ABC]$/
    if (!match(text, /^(own request |IAM, |ANM or CON, |REL, |FAC, |access: )/)) return text == page
    if (index(page, substr(text, 1, RLENGTH)) != 1) return 0
    n = split(substr(page, RLENGTH + 1), one, / or /)
    for (i = 1; i <= n; i++) if (one[i] == substr(text, RLENGTH + 1)) return 1
    return 0
}

function check_case(label, name, ordinal,   text, past, before, after, n, i, want, got, flags, parts, error, cause, agreed, asked,
    list, given, at, payer) {
    if (!(name in cases)) { wrong(label ": there is no case " name); return }
    if (name in twice) { wrong(label ": two cases have the name " name); return }
    if (!((name, ordinal) in listing)) { wrong(label ": " name " shows no record " ordinal); return }
    shown_by = name " " ordinal
    split(listing[name, ordinal], after, / /)
    if (after[2] != 0) wrong(label ": " shown_by " gives back " after[2])
    text = record[name, ordinal]
    if (ordinal > 1) split(listing[name, ordinal - 1], before, / /)
    else { before[3] = "NONE"; before[4] = "IDLE" }
    flags = byte(record[name, 1], 6)
    if (label !~ /^G/) {
        if (byte(record[name, 1], 5) != (label ~ /^O/ ? 0 : 1)) wrong(label ": " shown_by " is at the other exchange")
        if (before[3] ", " before[4] != stand_of[label]) wrong(label ": " shown_by " stands at " before[3] ", " before[4])
    } else if ((label == "G2" && before[3] != "SETUP") || (label == "G3" && before[3] != "ANSWERED"))
        wrong(label ": " shown_by " stands at " before[3])

    # its event and conditions
    n = split(event[label], list, /; /)
    if (!same_event(event_words(text), list[1])) wrong(label ": " shown_by " is \"" event_words(text) "\"")
    parts = byte(text, 3) == 3 ? byte(text, 9) : 0
    error = byte(text, 3) == 3 ? byte(text, 8) : byte(text, 3) == 4 ? byte(text, 6) : 0
    cause = byte(text, 3) == 3 ? byte(text, 6) : 16 # 01: "(16 if none)"
    agreed = asked = 0
    for (i = 2; i < ordinal; i++) {
        split(listing[name, i], at, / /)
        if (at[2] != 0) continue
        past = record[name, i]
        if (byte(past, 3) == 2) asked = byte(past, 5)
        if (byte(past, 3) == 3 && byte(past, 7) == 1) agreed = bit(flags, 1) && bit(byte(past, 9), 1)
        if (byte(past, 3) == 3 && byte(past, 7) == 2) agreed = bit(flags, 1) && bit(byte(past, 9), 2) && bit(byte(past, 9), 4)
    }
    for (i = 2; i <= n; i++)
        if (!holds(list[i], flags, error, parts, agreed, asked)) wrong(label ": " shown_by " has not \"" list[i] "\"")

    # its answer: with STOP or without where it is in brackets
    got = does[name, ordinal] == "" ? "none" : does[name, ordinal]
    want = answer[label]
    gsub(/CALLING own/, "CALLING " digits(record[name, 1], 7), want)
    gsub(/CALLED own/, "CALLED " digits(record[name, 1], 7), want)
    gsub(/DURATION caller\047s/, "DURATION " before[5], want)
    gsub(/ERROR error/, "ERROR " error, want)
    gsub(/REL cause/, "REL " cause, want)
    given = want
    gsub(/[][]/, "", given)
    gsub(/; \[STOP\]|\[STOP\]; /, "", want)
    if (got != given && got != want) wrong(label ": " shown_by " answers \"" got "\"")
    if (got == given && given != want) stopped[label] = 1

    # what follows
    want = follow[label]
    sub(/,.*/, "", want)
    if (want == "the same") want = before[3] " " before[4]
    if (want != after[3] " " after[4]) wrong(label ": after " shown_by " the call is " after[3] " " after[4])

    # who pays, where time passes next
    if (!((name, ordinal + 1) in listing) || event_words(record[name, ordinal + 1]) != "time" || after[3] != "ANSWERED") return
    split(listing[name, ordinal + 1], at, / /)
    for (i = 5; i <= 7; i++) if (at[i] != after[i]) payer = i == 5 ? "caller pays" : i == 6 ? "called pays" : "far exchange pays"
    if (payer != "" && follow[label] ~ / pays/ && index(follow[label], payer) == 0 && label != "G3")
        wrong(label ": after " shown_by " " payer)
}

END {
    for (i = 1; i <= lines; i++) read_comment(i)
    for (r = 1; r <= rows; r++) {
        label = every[r]
        if (!(label in event)) { wrong("docs/ROWS.md has no row " label); continue }
        check_row(label)

        # the cases and theorems that show it
        n = split(proof[label], shows_it, /[,;] */)
        for (j = 1; j <= n; j++) {
            if (shows_it[j] ~ /^STOP: `/) {
                split(shows_it[j], part, /`/)
                if (!(part[2] in tried)) wrong(label ": specs/Tried.antt has no " part[2])
                else if (!tried[part[2]]) wrong(label ": " part[2] " of specs/Tried.antt has no Stop")
                else stopped[label] = 1
                continue
            }
            if (split(shows_it[j], part, /` ?/) == 3 && part[3] ~ /^[0-9]+$/) check_case(label, part[2], part[3])
            else wrong("docs/ROWS.md: " label " is shown by \"" shows_it[j] "\"")
        }
        if (answer[label] ~ /\[STOP\]/ && !(label in stopped)) wrong(label ": nothing shows it with STOP")
    }

    # every label, wherever it stands, is that of the page
    for (key in found_word) not_so("specs/Find.antt", key)
    for (key in in_enum) not_so("src/lib.rt", key)
    for (key in in_code) not_so("src/rows.rt", key)
    for (row in variant) if (!(row in plan_at)) wrong("specs/Rows.antt has no plan_of " row)
    for (i = 1; i <= lines; i++) {
        split(left_of[i], part, / /)
        head = part[1]
        n = split(trim(named[i]), list, / /)
        for (j = 1; j <= n; j++) {
            if (!(list[j] in is_row)) { wrong("specs/Rows.antt, " left_of[i] " names " list[j]); continue }
            if (head == "plan_of") {
                if (!((list[j], part[2]) in is_word)) wrong("specs/Rows.antt, " left_of[i] " names " list[j] ", docs/ROWS.md not")
                continue
            }
            in_definition[head] = in_definition[head] " " list[j]
            if (index(left_of[i] " ", definition[list[j]] " ") != 1 && trim(right_of[line_of(list[j])]) != head)
                wrong("specs/Rows.antt, " left_of[i] " names " list[j] ", docs/ROWS.md not")
        }
    }
    # the arms of the code have the labels of the definition's lines, in their order
    for (head in in_definition) {
        if (arms[head] != in_definition[head])
            wrong("src/rows.rt, " head " has the labels" arms[head] ", specs/Rows.antt, " head in_definition[head])
        known[head] = 1
    }
    for (head in arms)
        if (head != "plan_of" && !(head in known)) wrong("src/rows.rt, " head " has the labels" arms[head] ", specs/Rows.antt none")

    # the rows of both roles: in each table of their phase but where a role has its own
    for (name in place_of) {
        for (i = 1; i <= 5; i++) {
            if ((("G" i, name) in finds) != (("G" i, name) in both_at)) wrong("docs/ROWS.md and specs/Find.antt differ on G" i " in " name)
        }
        if (place_of[name] !~ /SETUP|ANSWERED/) continue
        if (!((name, "Passes", "") in answers_kind)) wrong("specs/Find.antt: " name " has no row for time")
        if (!((name, "Rel", "") in answers_kind)) wrong("specs/Find.antt: " name " has no row for REL")
        if (!((name, "Tells", "clears") in answers_kind)) wrong("specs/Find.antt: " name " has no row for a clearing access")
    }

    # where each sentence went
    for (i = 1; i <= rows; i++) {
        n = split(sentence[every[i]], part, /[^0-9.n]+/)
        for (j = 1; j <= n; j++) {
            if (part[j] !~ /^3\.5\.2\.[0-9n]\.[0-9]\.[0-9]$/) continue
            for (k = 1; k <= (part[j] ~ /n/ ? 5 : 1); k++) {
                clause = part[j]
                sub(/n/, k, clause)
                said[every[i], clause] = 1
                if (!((every[i], clause) in went)) wrong("docs/ROWS.md: " clause " went not to " every[i] ", whose row names it")
            }
        }
        if (match(sentence[every[i]], /02 #[0-9]+/)) {
            clause = substr(sentence[every[i]], RSTART, RLENGTH)
            said[every[i], clause] = 1
            if (!((every[i], clause) in went)) wrong("docs/ROWS.md: " clause " went not to " every[i] ", whose row names it")
        }
    }
    for (key in went) {
        split(key, part, SUBSEP)
        if (!(key in said)) wrong("docs/ROWS.md: " part[2] " went to " part[1] ", whose row does not name it")
        else if ((miss = within(went[key], sentence[part[1]])) != "")
            wrong("docs/ROWS.md: " part[2] " " went[key] " went to " part[1] ", whose sentence has no \"" miss "\"")
    }
    for (i = 1; i <= 5; i++) for (j = 1; j <= 5; j += 4) for (k = 1; k <= 2; k++) {
        clause = "3.5.2." i "." j "." k
        if (listed[clause] != 1) wrong("docs/ROWS.md does not say once where " clause " went")
    }
    if (faults) exit 1
    print "rows: " rows " rows, each the same on the page, in the definitions, in the code's labels and in a case"
}

function not_so(file, key,   part) {
    split(key, part, SUBSEP)
    if (!(key in is_word)) wrong(file ": " part[1] " is " part[2] ", not so in docs/ROWS.md")
}

# the line of specs/Rows.antt that a row has on the page
function line_of(label,   i) {
    for (i = 1; i <= lines; i++) if (index(left_of[i] " ", definition[label] " ") == 1) return i
    return 0
}
