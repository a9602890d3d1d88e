#!/usr/bin/env bash
# Runs the program as a user does, and compares its exit status, standard output and standard error. Says on standard
# error what differs; the last line of standard output is 'N passed, M failed'.
set -u
cd "$(dirname "$(readlink -f "${BASH_SOURCE[0]}")")/.." || exit 2

passed=0
failed=0
zone=EST5EDT,M3.2.0,M11.1.0
report=2025-06-10T15:59Z
no_command='{"field":"body","name":"BadJson","refusal":31,"result":"refused"}'

# case_of NAME STATUS OUT ERR WORDS..: OUT and ERR are patterns of the whole text.
case_of() {
    local name=$1 status=$2 out=$3 err=$4 got_out got_err got
    shift 4
    got_err=$(mktemp) || exit 2
    got_out=$(./rosterbook "$@" 2>"$got_err" </dev/null)
    got=$?
    # shellcheck disable=SC2053
    if [ "$got" -eq "$status" ] && [[ $got_out == $out ]] && [[ $(cat "$got_err") == $err ]]; then
        passed=$((passed + 1))
    else
        failed=$((failed + 1))
        printf 'tests/program.sh: %s: status %s\n%s\n%s\n' "$name" "$got" "$got_out" "$(cat "$got_err")" >&2
    fi
    rm -f "$got_err"
}

# holds NAME COMMAND..: the command succeeds.
holds() {
    local name=$1
    shift
    if "$@"; then
        passed=$((passed + 1))
    else
        failed=$((failed + 1))
        echo "tests/program.sh: $name: no" >&2
    fi
}

# lost NAME STREAM WORDS..: standard output is one of `streams`, which fails.
lost() {
    local name=$1 stream=$2 got
    shift 2
    got=$(./rosterbook "$@" 2>&1 >&"${streams[$stream]}" </dev/null)
    holds "$name, $stream: $got" [ "$? $got" = '3 refused 92 Channel' ]
}

# untold NAME STREAM WORDS..: so is standard error, and the exit status alone shows it.
untold() {
    local name=$1 stream=$2 got
    shift 2
    got=$(./rosterbook "$@" 2>&"${streams[$stream]}" </dev/null)
    holds "$name, $stream: $got" [ "$? $got" = '3 ' ]
}

# starved NAME OUT WORDS..: of a MiB of zeros, and of memory that is limited to ever more MiB: first the program can't begin,
# then it finds too little, and then it answers OUT, with status 1.
starved() {
    local name=$1 out=$2 mib got told=
    shift 2
    for ((mib = 4; mib <= 256; mib++)); do
        got=$( (ulimit -v $((mib * 1024)) && exec crates/rosterbook_main/out/rosterbook_main "$@") 2>&1 <"$room/zeros")
        got="$? $got"
        case $got in
            '3 refused 91 Memory') told=$got ;;
            "1 $out") break ;;
            *) [ -z "$told" ] || break ;;
        esac
    done
    holds "$name: ${told:-no 91}, $got" [ "$told, $got" = "3 refused 91 Memory, 1 $out" ]
}

# missing ARGUMENTS WORDS..: the command line lacks these arguments, one a line.
missing() {
    local list=${1//$'\n'/$'\n  '}
    shift
    case_of "missing of $*" 2 '' $'error: the following required arguments were not provided:\n  '"$list"$'\n\n*' "$@"
}

# unexpected WORDS..: the last word is one too many.
unexpected() {
    case_of "unexpected: $*" 2 '' "error: unexpected argument '${!#}' found"$'\n*' "$@"
}

# no_number WORD WHY: the word is no number of a request.
no_number() {
    case_of "number '$1'" 2 '' "error: invalid value '$1' for '<NUMBER>': $2"$'\n*' import "$room/unmade" "$1"
}

# no_port WORD WHY: the word is no port, whether the line says how many connections are served or not.
no_port() {
    case_of "port '$1'" 2 '' "error: invalid value '$1' for '<PORT>': $2"$'\n*' serve "$room/unmade" "$1"
    case_of "port '$1' and connections" 2 '' "error: invalid value '$1' for '<PORT>': $2"$'\n*' serve "$room/unmade" "$1" --connections 0
}

# no_connections WORD WHY: the word is no number of connections.
no_connections() {
    case_of "connections '$1'" 2 '' "error: invalid value '$1' for '--connections <N>': $2"$'\n*' serve "$room/unmade" 8117 --connections "$1"
}

# no_days FROM TO: a board of these is a mistake in the command line, also where there is no book.
no_days() {
    case_of "no days '$1' '$2'" 2 '' $'error: FROM and TO must be days such as 2025-06-01 and 2025-06-30,\nof the years 2000 to 2099, TO not before FROM, at most 62 days\n*Usage: rosterbook board \\[OPTIONS\\] <FILE> <FROM> <TO>\n*' \
        board "$room/unmade" "$1" "$2"
}

# help_of COMMAND NAMES..: the help of the command, or of the program where that is '', has each name and fits 80 columns.
help_of() {
    local command=$1 text name
    shift
    case_of "help of '$command'" 0 '?*' '' ${command:+"$command"} --help
    text=$(./rosterbook ${command:+"$command"} --help </dev/null)
    for name in "$@"; do
        holds "'$name' in the help of '$command'" grep -qFe "$name" <<<"$text"
    done
    holds "80 columns of '$command'" [ -z "$(LC_ALL=C grep '.\{81\}' <<<"$text")" ]
}

command_lines() {
    case_of no_words 2 '' 'The roster book*Usage: rosterbook <COMMAND>*'
    case_of no_command 2 '' $'error: unrecognized subcommand \'rest\'\n*' rest
    case_of version 0 'rosterbook 0.1.0' '' --version
    case_of not_utf_8 2 '' 'error: an argument is not UTF-8' duty $'\xff'
    missing $'<ZONE>\n<REPORT>\n<TIME>...' duty
    missing '<TIME>...' duty "$zone" "$report"
    missing $'<FILE>\n<ZONE>' init
    missing '<ZONE>' init "$room/unmade"
    missing '<FILE>' 'do'
    missing '<FILE>' 'do' --lines --dry-run
    missing $'<FILE>\n<NUMBER>' import
    missing '<NUMBER>' import "$room/unmade"
    missing $'<FILE>\n<CREW>' roster
    missing '<CREW>' roster "$room/unmade"
    missing $'<FILE>\n<PAIRING>' pairing
    missing '<PAIRING>' pairing "$room/unmade"
    missing $'<FILE>\n<CREW>' limits
    missing '<CREW>' limits "$room/unmade"
    missing '<CREW>' limits "$room/unmade" --with P1
    missing '<FILE>' exceedances
    missing '<FILE>' members
    missing '<FILE>' pairings
    missing '<FILE>' pairings --open
    missing '<FILE>' pairings --open --json
    missing '<FILE>' members --json
    missing $'<FILE>\n<FROM>\n<TO>' board
    missing '<TO>' board --json "$room/unmade" 2025-06-01
    missing $'<FILE>\n<NUMBER>' request
    missing '<NUMBER>' request "$room/unmade" --json
    missing '<CREW>' roster --json "$room/unmade"
    missing $'<FILE>\n<PORT>' serve
    missing '<PORT>' serve "$room/unmade"
    missing '<PORT>' serve "$room/unmade" --connections 1
    unexpected duty "$zone" "$report" --late
    unexpected init "$room/unmade" "$zone" x
    unexpected init "$room/unmade" --new
    unexpected 'do' "$room/unmade" "$room/unmade"
    unexpected 'do' --dry-run "$room/unmade" --lines "$room/unmade"
    unexpected 'do' "$room/unmade" --dry
    unexpected import "$room/unmade" 500 501
    unexpected import "$room/unmade" -1
    unexpected import "$room/unmade" 500 --dry-run
    unexpected roster "$room/unmade" C1 C2
    unexpected pairing "$room/unmade" P1 P2
    unexpected limits "$room/unmade" C1 P1
    unexpected limits "$room/unmade" C1 --with P1 P2
    unexpected limits "$room/unmade" C1 --with -1
    unexpected limits "$room/unmade" C1 --wit
    unexpected roster "$room/unmade" C1 --with
    unexpected exceedances "$room/unmade" C1
    unexpected members "$room/unmade" C1
    unexpected members "$room/unmade" --open
    unexpected members "$room/unmade" --json C1
    unexpected members "$room/unmade" --jso
    unexpected exceedances "$room/unmade" -j
    unexpected roster "$room/unmade" C1 --json C2
    unexpected limits "$room/unmade" C1 --with P1 --json P2
    unexpected 'do' "$room/unmade" --json
    unexpected init "$room/unmade" "$zone" --json
    unexpected pairings "$room/unmade" B101
    unexpected pairings "$room/unmade" --open B101
    unexpected pairings --open "$room/unmade" "$room/unmade"
    unexpected pairings "$room/unmade" --ope
    unexpected pairing "$room/unmade" B101 --open
    unexpected board "$room/unmade" 2025-06-01 2025-06-30 2025-07-01
    unexpected board "$room/unmade" 2025-06-01 2025-06-30 --open
    unexpected request "$room/unmade" 7 8
    unexpected request "$room/unmade" -1
    unexpected serve "$room/unmade" 8117 1
    unexpected serve "$room/unmade" -1
    unexpected serve "$room/unmade" 8117 --connections -1
    unexpected serve "$room/unmade" 8117 --connection
    unexpected 'do' "$room/unmade" --connections
    no_number 0 '0 is not in 1..=9223372036854775807'
    no_number 9223372036854775808 '9223372036854775808 is not in 1..=9223372036854775807'
    no_number 18446744073709551616 'number too large to fit in target type'
    no_number 1.5 'invalid digit found in string'
    no_number abc 'invalid digit found in string'
    no_number '' 'cannot parse integer from empty string'
    case_of kept_under_0 2 '' $'error: invalid value \'0\' for \'<NUMBER>\': 0 is not in 1..=9223372036854775807\n*' request "$room/unmade" 0
    case_of kept_under_no_number 2 '' $'error: invalid value \'x\' for \'<NUMBER>\': invalid digit found in string\n*' \
        request "$room/unmade" x --json
    no_days 2025-06-31 2025-07-01
    no_days 2025-06-01 2025-6-30
    no_days 2025-06-02 2025-06-01
    no_days 2025-06-01 2025-08-02
    no_days 1999-12-31 2000-01-01
    no_days 2099-12-31 2100-01-01
    no_days 2025-06-01T00:00Z 2025-06-02
    no_days '' ''
    no_port 0 '0 is not in 1..=65535'
    no_port 65536 '65536 is not in 1..=65535'
    no_port 18446744073709551616 'number too large to fit in target type'
    no_port http 'invalid digit found in string'
    no_port '' 'cannot parse integer from empty string'
    no_connections 0 '0 is not in 1..=1000000'
    no_connections 1000001 '1000001 is not in 1..=1000000'
    no_connections 18446744073709551616 'number too large to fit in target type'
    no_connections 1.5 'invalid digit found in string'
    no_connections '' 'cannot parse integer from empty string'
    case_of connections_of_no_number 2 '' $'error: a value is required for \'--connections <N>\' but none was supplied\n*' \
        serve "$room/unmade" 8117 --connections
    case_of connections_twice 2 '' $'error: the argument \'--connections <N>\' cannot be used multiple times\n*' \
        serve "$room/unmade" 8117 --connections 1 --connections 1
    case_of dry_run_twice 2 '' $'error: the argument \'--dry-run\' cannot be used multiple times\n*' \
        'do' "$room/unmade" --dry-run --dry-run
    case_of lines_of_a_number 2 '' $'error: unexpected value \'2\' for \'--lines\' found; no more were expected\n*' \
        'do' "$room/unmade" --lines=2
    case_of open_twice 2 '' $'error: the argument \'--open\' cannot be used multiple times\n*' \
        pairings "$room/unmade" --open --open
    case_of open_of_a_word 2 '' $'error: unexpected value \'no\' for \'--open\' found; no more were expected\n*' \
        pairings "$room/unmade" --open=no
    case_of json_twice 2 '' $'error: the argument \'--json\' cannot be used multiple times\n*' \
        roster "$room/unmade" C1 --json --json
    case_of json_of_a_word 2 '' $'error: unexpected value \'no\' for \'--json\' found; no more were expected\n*' \
        exceedances "$room/unmade" --json=no
    case_of with_no_pairing_but_json 2 '' $'error: a value is required for \'--with <PAIRING>\' but none was supplied\n*' \
        limits "$room/unmade" C1 --with --json
    case_of with_no_pairing 2 '' $'error: a value is required for \'--with <PAIRING>\' but none was supplied\n*' \
        limits "$room/unmade" C1 --with
    case_of with_twice 2 '' $'error: the argument \'--with <PAIRING>\' cannot be used multiple times\n*' \
        limits "$room/unmade" C1 --with P1 --with P2
    holds unmade [ ! -e "$room/unmade" ]
}

helps() {
    case_of help 0 'The roster book*' '' --help
    help_of '' duty init 'do' import roster pairing limits exceedances members pairings board request serve FILE ZONE NUMBER PORT FROM TO CREW PAIRING REPORT TIME "$zone" "$report" \
        REFUSALS.md 'man rosterbook'
    help_of duty duty ZONE REPORT TIME "$zone" "$report" 'UTC instant' Example:
    help_of init init FILE ZONE "$zone" UTC 'new or empty' 'base HOME' Example:
    help_of 'do' 'do' FILE 'JSON on standard input' '"number":1' '  add-base        base, zone' '  add-crew        crew, seat, name, base' \
        '  actual          pairing, period, report, release, segments' '  record-outside  outside, crew, report, release, segments' \
        '90 Store' --dry-run --lines 'rosterbook do roster.db --lines' 'Exit status'
    help_of import import FILE NUMBER 'CSV on standard input' 'from 1 to 9223372036854775807' '  pairing,period,report,release,flight,from,out,to,in' \
        'record 1' '90 Store' 'Exit status'
    help_of roster roster FILE CREW --json 'rosterbook roster roster.db C1' 'hours and minutes' 'Exit status'
    help_of pairing pairing FILE PAIRING --json 'rosterbook pairing roster.db B101' 'Exit status'
    help_of limits limits FILE CREW '--with <PAIRING>' --json 'rosterbook limits roster.db C1 --with B102' "'exceeds' or" "'within'" '12 Limits' \
        'Exit status'
    help_of exceedances exceedances FILE --json 'rosterbook exceedances roster.db' "'outside'" 'Exit status'
    help_of members members FILE --json 'rosterbook members roster.db' 'order of the ids' 'Exit status'
    help_of pairings pairings FILE --open --json 'rosterbook pairings roster.db --open' "'flown'" "'-' for a free seat" 'Exit status'
    help_of board board FILE FROM TO --json '<FROM>  First day by UTC' '<TO>    Last day by UTC' 'rosterbook board roster.db 2025-06-01 2025-06-30' 'At most 62 days' \
        'Exit status'
    help_of request request FILE NUMBER --json 'rosterbook request roster.db 7' 'part 0' 'Exit status'
    help_of serve serve FILE PORT '--connections <N>' '[default: 1000000]' 'from 1 to 65535' 'from 1 to 1000000' \
        'rosterbook serve roster.db 8117 --connections 2' 'listening PORT' '92 Channel' '93 Network' '90 Store' 'Exit status'
}

failing_outputs() {
    local stream words=(duty "$zone" "$report" 2025-06-10T{16:30,20:30}Z 2025-06-11T{01:29,05:59}Z)
    for stream in full unread closed; do
        lost help "$stream" --help
        lost verdict "$stream" "${words[@]}"
        untold mistake "$stream" rest
        untold refused_zone "$stream" duty '' '' ''
        untold no_folder "$stream" init "$room/unmade/roster.db" "$zone"
    done
}

books() {
    local book=$room/roster.db text=$room/text word
    : >"$room/empty"
    seq 1000 >"$text"
    case_of init 0 ready '' init "$book" "$zone"
    case_of init_again 3 '' 'refused 43 NotEmpty' init "$book" UTC0
    case_of init_of_an_empty_file 0 ready '' init "$room/empty" UTC0
    case_of init_without_a_zone 1 '' 'refused T4 ZoneText' init "$room/unmade" America/New_York
    case_of init_in_no_folder 3 '' 'refused 90 Store' init "$room/unmade/roster.db" "$zone"
    # The zone is looked at first.
    for word in '' America/New_York EST5EDT É5; do
        case_of "init_in_no_folder_of_the_zone '$word'" 1 '' 'refused T4 ZoneText' init "$room/unmade/roster.db" "$word"
    done
    case_of init_of_a_folder 3 '' 'refused 90 Store' init "$room" "$zone"
    case_of init_of_a_device 3 '' 'refused 90 Store' init /dev/full "$zone"
    case_of init_of_memory 3 '' 'refused 90 Store' init :memory: "$zone"
    case_of init_of_a_text 3 '' 'refused 90 Store' init "$text" "$zone"
    holds unmade [ ! -e "$room/unmade" ]
    holds text_kept [ "$(seq 1000)" = "$(cat "$text")" ]
    case_of exceedances_of_an_empty_book 0 'EXCEEDANCES 0' '' exceedances "$book"
    case_of members_of_an_empty_book 0 'MEMBERS 0' '' members "$book"
    case_of pairings_of_an_empty_book 0 'PAIRINGS 0' '' pairings "$book"
    case_of open_pairings_of_an_empty_book 0 'PAIRINGS 0' '' pairings --open "$book"
    case_of exceedances_in_json 0 '{"exceedances":\[\]}' '' exceedances "$book" --json
    case_of members_in_json 0 "{\"bases\":\\[{\"base\":\"HOME\",\"zone\":\"$zone\"}\\],\"members\":\\[\\]}" '' members --json "$book"
    case_of pairings_in_json 0 '{"pairings":\[\]}' '' pairings "$book" --json
    case_of open_pairings_in_json 0 '{"pairings":\[\]}' '' pairings --json "$book" --open
    case_of board_of_an_empty_book 0 $'BOARD 2025-06-01 2025-08-01\nOPEN 0' '' board "$book" 2025-06-01 2025-08-01
    case_of board_in_json 0 "{\"bases\":\\[{\"base\":\"HOME\",\"zone\":\"$zone\"}\\],\"members\":\\[\\],\"open\":\\[\\]}" '' \
        board --json "$book" 2025-06-01 2025-06-01
    case_of request_without_a_part 0 'REQUEST 7' '' request "$book" 7
    case_of request_in_json 0 '{"number":"9223372036854775807","parts":\[\]}' '' request "$book" 9223372036854775807 --json
    # Standard input is at its end: it is no command, and has no line.
    case_of no_command_on_standard_input 1 "$no_command" '' 'do' "$book" --dry-run
    case_of no_line_on_standard_input 0 '' '' 'do' "$book" --lines
    case_of no_line_to_check 0 '' '' 'do' --lines "$book" --dry-run
    case_of roster_of_nobody 1 '' 'refused 2 NoSuchCrew' roster "$book" C1
    case_of roster_of_nobody_in_json 1 '' 'refused 2 NoSuchCrew' roster "$book" C1 --json
    case_of limits_of_nobody_in_json 1 '' 'refused 2 NoSuchCrew' limits "$book" C1 --with B101 --json
    case_of pairing_of_no_text 1 '' 'refused 4 NoSuchPairing' pairing "$book" ''
    case_of pairing_of_no_text_in_json 1 '' 'refused 4 NoSuchPairing' pairing "$book" '' --json
    case_of roster_in_no_folder 3 '' 'refused 40 NotABook' roster "$room/unmade/roster.db" C1
    case_of exceedances_of_a_text 3 '' 'refused 90 Store' exceedances "$text"
    case_of members_in_no_folder 3 '' 'refused 40 NotABook' members "$room/unmade/roster.db"
    case_of members_in_json_in_no_folder 3 '' 'refused 40 NotABook' members "$room/unmade/roster.db" --json
    case_of pairings_of_a_text 3 '' 'refused 90 Store' pairings "$text" --open
    case_of check_in_no_folder 3 '' 'refused 40 NotABook' 'do' "$room/unmade/roster.db" --dry-run
    case_of lines_in_no_folder 3 '' 'refused 40 NotABook' 'do' "$room/unmade/roster.db" --lines
    case_of checks_of_a_text 3 '' 'refused 90 Store' 'do' "$text" --lines --dry-run
    lost exceedances full exceedances "$book"
    lost members full members "$book"
    lost pairings full pairings "$book" --open
    lost members_in_json full members "$book" --json
    lost check full 'do' "$book" --dry-run
    untold roster_of_nobody full roster "$book" C1
    # A book is made before that is printed.
    lost init full init "$room/untold" "$zone"
    case_of init_after_a_full_disk 3 '' 'refused 43 NotEmpty' init "$room/untold" "$zone"
    if command -v sqlite3 >/dev/null; then
        holds zone_kept [ "$(sqlite3 "$book" 'SELECT one, version, zone FROM book' 2>&1)" = "1|2|$zone" ]
    fi
}

little_memory() {
    local book=$room/starved.db
    head -c 1048576 /dev/zero >"$room/zeros"
    case_of init_before_memory_is_limited 0 ready '' init "$book" "$zone"
    starved do_of_little_memory "$no_command" 'do' "$book"
    starved check_of_little_memory "$no_command" 'do' "$book" --dry-run
    starved lines_of_little_memory "$no_command" 'do' "$book" --lines
    starved import_of_little_memory 'refused 30 BadCsv 1' import "$book" 1
}

room=$(mktemp -d) || exit 2
trap 'rm -rf "$room"' EXIT
./rosterbook --version >/dev/null || failed=$((failed + 1))
# Streams that take nothing: a full disk, a pipe that nobody reads (which is opened to be read too at first), and none at all.
mkfifo "$room/pipe" || exit 2
exec {full}>/dev/full {pipe}<>"$room/pipe"
exec {unread}>"$room/pipe" {pipe}>&-
declare -A streams=([full]=$full [unread]=$unread [closed]=-)

command_lines
helps
failing_outputs
books
little_memory
echo "$passed passed, $failed failed"
