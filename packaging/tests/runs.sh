# shellcheck shell=bash
# Tests of starts of ptpuni-serve: the epoch, the settings that are handed over, starts anew, an end.

# The last start: the epoch is the offset behind the second at which the settings ended.
starts_at_second() {
    local ended epoch second
    read -r ended epoch < <(tail -n 1 "$room/starts")
    second=$((epoch - $1))
    # (on a machine that is busy, the program may come late; the offsets of these tests are further apart)
    ((${ended%.*} >= second)) && ((${ended%.*} < second + 60))
}

given_as_written() {
    diff <(grep -v '^epoch' "$room/good.toml" | sort) <(grep -v '^epoch' "$room/given" | sort) >/dev/null &&
        [ "$(grep -c '^epoch' "$room/given")" -eq 1 ]
}

epochs_rise() {
    awk '{ print $2 }' "$room/starts" | sort -nuc
}

is_stopped_whole() {
    local call status
    rm -f "$room/starts" "$room/asleep"
    touch "$room/lasts"
    env PTPUNI_PROGRAM="$room/fake" "$room/ptpuni-serve" "$room/good.toml" >"$room/journal" 2>&1 </dev/null &
    call=$!
    wait_for "$room/asleep"
    kill -TERM "$call"
    wait "$call" 2>/dev/null
    status=$?
    rm -f "$room/lasts"
    # (what it has said by then is not lost)
    [ "$status" -eq 143 ] && count "$room/stopped" 1 && [ "$(grep -c '^rounds 3 sent 0' "$room/journal")" -eq 1 ]
}

# Runs the launcher at a moment of its clock, in seconds with six digits behind the point. As soon as it sleeps it is nine
# seconds later. (Bash reads the file of BASH_ENV before a script.)
launch_at() {
    printf '%s\n' "unset EPOCHSECONDS EPOCHREALTIME" "EPOCHSECONDS=${1%.*} EPOCHREALTIME=$1" \
        "sleep() { EPOCHSECONDS=$((${1%.*} + 9)) EPOCHREALTIME=$((${1%.*} + 9)).000000; }" >"$room/moment"
    # (a wait that is too short to sleep would never end)
    timeout 60 env BASH_ENV="$room/moment" PTPUNI_ZONEINFO="$room/zones" PTPUNI_PROGRAM="$room/fake" \
        "$room/ptpuni-serve" --once "$room/good.toml"
}

# 1814400000 is 2027-07-01 00:00:00 UTC. The program has half a second, and not less, until the second begins.
test_moments() {
    local it
    for it in 000001 499999; do
        says "a start $it us behind a second" 0 "from 2027-07-01 00:00:01 UTC on, which is TAI second 1814400142" \
            launch_at "1814400000.$it"
    done
    for it in 500000 989999 999999; do
        says "a start $it us behind a second" 0 "from 2027-07-01 00:00:02 UTC on, which is TAI second 1814400143" \
            launch_at "1814400000.$it"
    done
}

# Runs a command with one list of leap seconds alone, that of standard input, under this name.
with_list() {
    local ended
    mv "$room/zones" "$room/kept"
    mkdir "$room/zones"
    cat >"$room/zones/$1"
    "${@:2}"
    ended=$?
    rm -r "$room/zones"
    mv "$room/kept" "$room/zones"
    return "$ended"
}

# A leap second at the end of June 2027, and one before that was taken away.
leapseconds() {
    printf '%s\n' "# a test" "Leap 1972 Jun 30 23:59:60 + S" "Leap 1973 Dec 31 23:59:60 + S" "Leap 1974 Dec 31 23:59:59 - S" \
        "Leap 2027 Jun 30 23:59:60 + S" "Leap 2099 Dec 31 23:59:60 + S" | with_list leapseconds "$@"
}

# The like in the form of the other list, whose moments count from 1900. It runs out when the leap second is over.
leap_list() {
    printf '%s\n' "# a test" "#@ 4023388800" "2272060800 10" "3692217600 11" "4023388800 12" "4481222400 42" |
        with_list leap-seconds.list "$@"
}

has_run_out() {
    leap_list launch_at "$1" 2>&1 | grep -q "has run out on 2027-07-01"
}

# Starts at the last second before the leap second, and at the first one behind it.
test_leaps() {
    says "leapseconds: a leap second on its own day" 0 "TAI second 1814400010 (UTC offset 11 s)" \
        leapseconds launch_at 1814399998.400000
    says "leapseconds: on the next day" 0 "TAI second 1814400012 (UTC offset 12 s)" leapseconds launch_at 1814399999.400000
    says "leap-seconds.list: before a leap second" 0 "TAI second 1814400010 (UTC offset 11 s)" \
        leap_list launch_at 1814399998.400000
    says "leap-seconds.list: from a leap second on" 0 "TAI second 1814400012 (UTC offset 12 s)" \
        leap_list launch_at 1814399999.400000
    holds "leap-seconds.list: at its last second it has not run out" fails has_run_out 1814399999.400000
    holds "leap-seconds.list: a second later it has" has_run_out 1814400000.400000
}

test_offsets() {
    says "an offset that is given" 0 "UTC offset 7 s" launch --once --utc-offset 7 "$room/good.toml"
    holds "the epoch is by the offset that is given" starts_at_second 7
    mv "$room/zones/leap-seconds.list" "$room/list"
    printf '%s\n' "# a test" "Leap 1972 Jun 30 23:59:60 + S" "Leap 1973 Dec 31 23:59:60 + S" "Leap 2099 Dec 31 23:59:60 + S" \
        >"$room/zones/leapseconds"
    says "leapseconds" 0 "UTC offset 12 s" launch --once "$room/good.toml"
    rm "$room/zones/leapseconds"
    says "no list of leap seconds" 0 "takes a UTC offset of 37 s" launch --once "$room/good.toml"
    sed 's/^#@.*/#@ 3944332800/' "$room/list" >"$room/zones/leap-seconds.list"
    says "a list that has run out" 0 "has run out on 2024-12-28" launch --once "$room/good.toml"
    mv "$room/list" "$room/zones/leap-seconds.list"
    test_leaps
}

test_ends() {
    local it
    rm "$room/starts"
    echo 3 >"$room/times"
    echo 67 >"$room/status"
    says "it starts anew after 0, and ends with another status" 67 "starts anew" launch "$room/good.toml"
    holds "three starts" count "$room/starts" 3
    holds "each start is at a later second" epochs_rise
    rm "$room/starts" "$room/times"
    echo 65 >"$room/status"
    echo "settings bad two_step" >"$room/line"
    says "what the program refuses is said in words" 65 "two_step is missing, of another type" launch "$room/good.toml"
    for it in "text:is no TOML" "size:has more than 65536 octets" "unknown:has a key that is no setting"; do
        echo "settings ${it%%:*}" >"$room/line"
        says "the program refuses settings: ${it%%:*}" 65 "good.toml: ${it#*:}" launch "$room/good.toml"
    done
    echo 69 >"$room/status"
    : >"$room/line"
    says "ports that are not had after all" 69 "could not be opened" launch "$room/good.toml"
    echo 71 >"$room/status"
    says "another status is said" 71 "ptpuni serve ended with the status 71" launch "$room/good.toml"
    rm "$room/line" "$room/status"
}

# All keys of `serve`, each with another value than its default but two_step, which is given.
all_settings() {
    settings "epoch = 5" "repeat = 3" "port = 2" "domain = 5" "class = 110" "max_duration = 300" "senders = 2" "change_round = 7" \
        "new_capacity = 8" "two_step = $1" "control_port = $control" 'control_key = "0123456789abcdef"'
}

test_runs() {
    local it
    if ! has_loopback; then
        skip "runs of the launcher: loopback is not up"
        return
    fi
    for it in false true; do
        all_settings "$it" >"$room/good.toml"
        says "a run, two_step = $it" 0 "rounds 3 sent 0" launch --once "$room/good.toml"
        holds "the epoch is TAI at the start, by leap-seconds.list" starts_at_second 141
        holds "the other settings are handed over, and one epoch: two_step = $it" given_as_written
    done
    test_moments
    test_offsets
    test_ends
    mkdir "$room/without"
    printf '#!/bin/sh\nexit 1\n' >"$room/without/python3"
    chmod 755 "$room/without/python3"
    says "without python3" 0 "by the program alone" env PATH="$room/without:$PATH" PTPUNI_PROGRAM="$room/fake" \
        "$room/ptpuni-serve" --once "$room/good.toml"
    holds "without python3 too, one epoch" given_as_written
    settings_with "$room/ones.toml" 'clock = "ffffFFFFffffFFFF"'
    says "without python3 too, no clock of all ones" 65 "clock is all ones" env PATH="$room/without:$PATH" \
        PTPUNI_PROGRAM="$room/fake" "$room/ptpuni-serve" --once "$room/ones.toml"
    holds "SIGTERM stops the launcher and the program" is_stopped_whole
}
