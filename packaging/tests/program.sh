# shellcheck shell=bash
# Tests of ptpuni-serve beside the program, where that is built: the launcher refuses what the program refuses.

# Whether the program and the launcher both end with this status for the settings of a file.
agree_on() {
    local wanted=$1 said
    "$program" serve <"$2" >/dev/null 2>&1
    said=$?
    launch --check "$2" >/dev/null 2>&1
    [ "$?" -eq "$wanted" ] && [ "$said" -eq "$wanted" ]
}

# The same for settings with these lines.
agree() {
    local wanted=$1
    shift
    settings_with "$room/try.toml" "$@"
    agree_on "$wanted" "$room/try.toml"
}

# For settings of so many octets: their number, and the status.
agree_on_size() {
    settings_of_size "$1" >"$room/try.toml"
    agree_on "$2" "$room/try.toml"
}

# Both edges of each range, on both sides: the docs, the launcher and the program have the same ones.
test_edges_of_both() {
    local key least most value lines
    while read -r key least most; do
        if [ "$key" = control_port ] && ! knows_control; then
            skip "both edges of control_port: the program does not know it"
            continue
        fi
        for value in "$least" "$most"; do
            lines_at "$key" "$value"
            holds "both take the edge $key = $value" agree 69 "${lines[@]}"
        done
        for value in $((least - 1)) $((most + 1)); do
            lines_at "$key" "$value"
            holds "both refuse $key = $value" agree 65 "${lines[@]}"
        done
    done < <(ranges)
}

test_agreement_on_control() {
    local key='control_key = "0123456789ABcdef"'
    holds "both take control_port and control_key" agree 0 "control_port = $control" "$key"
    holds "both take control_key alone" agree 0 "$key"
    holds "both refuse control_port alone" agree 65 "control_port = $control"
    holds "both refuse the control_port of another port" agree 65 "control_port = $general" "$key"
    for key in "control_key = 1" 'control_key = "0123456789abcde"' 'control_key = "0123456789abcdefa"' 'control_key = "0123456789abcdeg"'; do
        holds "both refuse: $key" agree 65 "control_port = $control" "$key"
        holds "both refuse, without a control_port: $key" agree 65 "$key"
    done
}

test_agreement() {
    local it
    for it in "class = 255" "domain = 23" "max_duration = 60" "senders = 0" 'clock = "00B0AEFFFE000001"' "port = 65534" \
        "epoch = 140737488355327" "rounds = 0x2" "repeat = 2" "capacity = 1_000" '"class" = 84' 'new_capacity = 5' "two_step = true" \
        $'control_port = 8319\ncontrol_key = "00B0AEFFFE000002"' 'control_key = "00b0aefffe000002"'; do
        holds "both take: $it" agree 0 "$it"
    done
    for it in "class = 256" "domain = 3" "domain = 24" "max_duration = 59" "max_duration = 1001" "senders = 5" "port = 0" \
        "port = 65535" "epoch = 140737488355328" "epoch = -1" "rounds = 4294967296" "rounds = 1.0" "repeat = 0" "repeat = 1001" "capacity = 0" \
        "capacity = 16777217" "capacity = \"8\"" "event_port = 0" "general_port = 65536" 'ip = "127.0.0.01"' \
        'ip = "127.0.0"' 'ip = 5' 'clock = "00b0aefffe00000g"' 'clock = 1' "new_capacity = 0" "change_round = 1" \
        "two_step = 0" "control_port = 8319" $'control_port = 65535\ncontrol_key = "00b0aefffe000002"' \
        $'control_key = "00b0aefffe00000"\ncontrol_port = 8319' "control_key = 5" "duration = 60" "[table]" "class = [84]" "class = " "=" "ip " "rounds " "clock "; do
        holds "both refuse: $it" agree 65 "$it"
    done
    if knows_control; then
        test_agreement_on_control
    else
        skip "both on the control port: the program does not know it"
    fi
    for it in "65536 0" "65537 65"; do
        holds "both: so many octets, this status: $it" agree_on_size "${it% *}" "${it#* }"
    done
    holds "both refuse one port for both" agree 69 "event_port = $general"
    if knows_addresses; then
        holds "both refuse an address of another machine" agree 69 'ip = "203.0.113.77"'
    else
        skip "both refuse an address of another machine: that is not known here"
    fi
}

# Whether a client is served by a program whose user may have so many processes, of which it is the only one: with 1 the
# first thread is refused, with 2 the second, and so on. What is sent beside the replies to its asks are messages.
serves_within() {
    local said client
    "$program" slave <"$room/client.toml" >/dev/null 2>&1 &
    client=$!
    said=$("${as_other[@]}" prlimit --nproc="$1:$1" "$program" serve <"$room/threads.toml" 2>&1)
    kill "$client" 2>/dev/null
    wait "$client" 2>/dev/null
    [[ $said =~ ^rounds\ 400\ sent\ ([0-9]+)\ failed\ 0\ granted\ [23]\ refused\ 0\ held\ [0-9]+$ ]] &&
        ((BASH_REMATCH[1] > 9))
}

# Where the system refuses a thread, all is served on one thread.
test_refused_threads() {
    local most
    local -a as_other=(setpriv --reuid=64321 --regid=64321 --clear-groups)
    if ! has prlimit || ! "${as_other[@]}" test -x "$program" 2>/dev/null; then
        skip "a refused thread: prlimit or setpriv is not here, or may not, or others may not read $program"
        return
    fi
    settings_with "$room/threads.toml" "senders = 4" "rounds = 400"
    settings_with "$room/client.toml" "ip = \"$beside\"" 'clock = "00b0aefffe000010"' "rounds = 100000" "capacity "
    printf '%s\n' "log_announce = -3" '[[masters]]' "ip = \"$address\"" "priority = 1" >>"$room/client.toml"
    for most in 1 2 3 4 5; do
        holds "a client is served though thread $most is refused" serves_within "$most"
    done
}

test_program() {
    local it words
    if [ -z "$program" ]; then
        skip "the launcher beside the program: it is not built (./ptpuni builds it)"
        return
    fi
    words=$("$program" 2>&1 | tr -d '|' | sed 's/^usage: ptpuni//; s/ N\b//g')
    holds "the program has eight words" [ "$(wc -w <<<"$words")" -eq 8 ]
    for it in $words; do
        holds "the manual page has the word $it" grep -qE "^\.(B|BI) \"?$it" "$here/ptpuni.1"
        says "the help has the word $it" 0 $'\n'"  $it " "$top/ptpuni" --help
    done
    if ! has_loopback; then
        skip "the launcher beside the program: loopback is not up"
        return
    fi
    if ! python3 -c 'import tomllib' 2>/dev/null; then
        skip "the launcher beside the program: python3 with tomllib (3.11) is not here"
        return
    fi
    test_agreement
    test_edges_of_both
    for it in false true; do
        settings "two_step = $it" >"$room/real.toml"
        says "the program is served by the launcher, two_step = $it" 0 "rounds 1 sent 0 failed 0" \
            "$room/ptpuni-serve" --once --program "$program" "$room/real.toml"
    done
    for it in 0 2; do
        settings_with "$room/real.toml" "senders = $it" "rounds = 2" "repeat = 3"
        says "rounds are done so many times over, in one run, senders = $it" 0 "rounds 6 sent 0 failed 0" \
            "$room/ptpuni-serve" --once --program "$program" "$room/real.toml"
    done
    test_refused_threads
}
