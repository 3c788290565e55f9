# shellcheck shell=bash
# Tests of settings that ptpuni-serve takes or refuses, with a program that writes down what it is given.

make_launcher() {
    mkdir -p "$room/zones" "$room/empty"
    cp "$here/ptpuni-serve" "$room/ptpuni-serve"
    chmod 755 "$room/ptpuni-serve"
    cat >"$room/fake" <<'END'
#!/usr/bin/env bash
room=$(dirname "$0")
if [ "$1" = show ]; then echo "end 0"; exit; fi
trap 'echo stopped >>"$room/stopped"; kill $! 2>/dev/null; exit 143' TERM
cat >"$room/given"
echo "$EPOCHREALTIME $(sed -n 's/^epoch = //p' "$room/given")" >>"$room/starts"
# (as many rounds as the settings have)
rounds=$(sed -n 's/^rounds = //p' "$room/given")
repeat=$(sed -n 's/^repeat = //p' "$room/given")
line="rounds $((rounds * ${repeat:-1})) sent 0 failed 0 granted 0 refused 0 held 0"
if [ -e "$room/line" ]; then cat "$room/line"; else echo "$line"; fi
[ ! -e "$room/between" ] || . "$room/between"
if [ -e "$room/lasts" ]; then sleep 600 & echo asleep >"$room/asleep"; wait; fi
[ "$(wc -l <"$room/starts")" -lt "$(cat "$room/times" 2>/dev/null || echo 1)" ] || exit "$(cat "$room/status" 2>/dev/null || echo 0)"
END
    chmod 755 "$room/fake"
    # The offset was 10 at first, is 141 now, and will be 42 in 2042.
    printf '%s\n' "# a test" "#@ 4092249600" "2272060800 10 # 1 Jan 1972" "3692217600 141 # 1 Jan 2017" "4481222400 42" \
        >"$room/zones/leap-seconds.list"
}

settings() {
    printf '%s\n' "ip = \"$address\"" 'clock = "00b0aefffe000001"' "rounds = 1" "capacity = 640" "event_port = $event" \
        "general_port = $general"
    (($# == 0)) || printf '%s\n' "$@"
}

launch() {
    env PTPUNI_ZONEINFO="$room/zones" PTPUNI_PROGRAM="$room/fake" "$room/ptpuni-serve" "$@"
}

# Writes settings to a file, in which each line that is given stands in place of the one of its key. A line that is a key
# and a blank takes the key away.
settings_with() {
    local file=$1 line key
    shift
    settings >"$file"
    for line in "$@"; do
        key=${line%% *}
        sed -i "/^$key /d" "$file"
        [ "$line" = "$key " ] || echo "$line" >>"$file"
    done
}

# A refusal of settings: its name, the words that are said, and the lines that replace those of the same keys.
refuses() {
    local name=$1 words=$2
    shift 2
    settings_with "$room/bad.toml" "$@"
    says "$name" 65 "$words" launch --check "$room/bad.toml"
}

# Settings that are taken: the name, and the lines.
takes() {
    local name=$1
    shift
    settings_with "$room/well.toml" "$@"
    says "$name" 0 "all is well" launch --check "$room/well.toml"
}

# The ranges of whole numbers of a grandmaster, as docs/FORMATS.md has them: key, least and greatest value in each line.
ranges() {
    sed -n '/^| Key of both/,/^| Key of a slave/p' "$top/docs/FORMATS.md" | awk -F'|' '$3 ~ /^ *[0-9]+ to [0-9]+( *|, .*)$/ {
        sub(/,.*/, "", $3)
        split($3, range, " ")
        count = split($2, keys, ",")
        for (i = 1; i <= count; i++) { gsub(/[` ]/, "", keys[i]); print keys[i], range[1], range[3] }
    }'
}

# The lines of settings with this value of a key, in the list `lines`. Both ports are one port: so nothing is started with
# them, and their status is 69 where all values are taken, 65 where one is refused.
lines_at() {
    lines=("general_port = $event" "$1 = $2")
    case $1 in
    event_port) lines+=("general_port = $2") ;;
    general_port) lines+=("event_port = $2") ;;
    change_round) lines+=("new_capacity = 5") ;;
    control_port) lines+=('control_key = "0123456789abcdef"') ;;
    esac
}

test_edges() {
    local key least most value lines
    holds "docs/FORMATS.md has the ranges of fourteen keys" [ "$(ranges | wc -l)" -eq 14 ]
    while read -r key least most; do
        for value in "$least" "$most"; do
            lines_at "$key" "$value"
            settings_with "$room/well.toml" "${lines[@]}"
            says "the edge $key = $value is taken" 69 "have to be two ports" launch --check "$room/well.toml"
        done
        for value in $((least - 1)) $((most + 1)); do
            lines_at "$key" "$value"
            refuses "$key = $value is refused" "$key is $value, and has to be a whole number from $least to $most" "${lines[@]}"
        done
    done < <(ranges)
}

# Settings of so many octets, with a comment as their last line.
settings_of_size() {
    settings "$(head -c "$1" /dev/zero | tr '\0' '#')" | head -c $(($1 - 1))
    echo
}

test_words() {
    says "good settings" 0 "all is well" launch --check "$room/good.toml"
    says "no file" 66 "no file that this user" launch "$room/nowhere.toml"
    says "no words" 64 "usage:" launch
    says "two files" 64 "more than one file" launch a b
    says "another option" 64 "no option --fast" launch --fast a
    says "an offset that is none" 64 "whole number of seconds" launch --utc-offset x a
    says "help" 0 "usage: ptpuni-serve" launch --help
    says "no program" 1 "there is no program" "$room/ptpuni-serve" --program "$room/none" "$room/good.toml"
    says "a program that does not run" 1 "does not run" "$room/ptpuni-serve" --program /bin/false "$room/good.toml"
}

test_values() {
    local it
    refuses "a key that is none" "bad.toml:7: capacityy is no setting: is capacity meant?" "capacityy = 3"
    refuses "a slave's settings" "has settings of \`ptpuni slave\`: duration" "duration = 300"
    refuses "no TOML" "bad.toml:7: is no TOML" "class = "$'\n'"domain = 4"
    refuses "a key twice" "is no TOML" $'class = 1\nclass = 2'
    refuses "not UTF-8" "bad.toml:7: is not UTF-8" $'class = "\xff"'
    refuses "the wildcard" "the wildcard" 'ip = "0.0.0.0"'
    refuses "multicast" "a multicast address" 'ip = "224.0.1.129"'
    refuses "the first multicast address" "a multicast address" 'ip = "224.0.0.0"'
    refuses "the last multicast address" "a multicast address" 'ip = "239.255.255.255"'
    refuses "broadcast to all" "the broadcast address" 'ip = "255.255.255.255"'
    refuses "no address" "has to be an IPv4 address" 'ip = "127.0.0.256"'
    refuses "a missing key" "capacity is missing" "capacity "
    refuses "a number out of range" "bad.toml:6: rounds is 0" "rounds = 0"
    refuses "a truth value for a number" "class is true" "class = true"
    refuses "a clock" "16 hexadecimal digits" 'clock = "00b0aefffe00000"'
    for it in ffffffffffffffff FFFFffffFFFFffff; do
        refuses "a clock of all ones, $it" "bad.toml:6: clock is all ones" "clock = \"$it\""
    done
    for it in fffffffffffffffe 7fffffffffffffff 0000000000000000; do
        takes "the clock $it" "clock = \"$it\""
    done
    refuses "a change without a capacity" "new_capacity is missing" "change_round = 5"
    refuses "two_step" "has to be true or false" "two_step = 1"
    takes "two_step that is true" "two_step = true"
    takes "two_step that is false" "two_step = false"
    test_control_values
    settings_of_size 65536 >"$room/long.toml"
    says "65536 octets are taken" 0 "all is well" launch --check "$room/long.toml"
    settings_of_size 65537 >"$room/long.toml"
    says "65537 octets are too long" 65 "more than 65536 octets" launch --check "$room/long.toml"
}

test_control_values() {
    local it key='control_key = "00B0aefffe000002"'
    takes "a control port with its key" "control_port = $control" "$key"
    takes "a key without a control port" "$key"
    refuses "a control port without a key" "control_key is missing: a text of 16 hexadecimal digits" "control_port = $control"
    refuses "a control port that is no number" "has to be a whole number from 1 to 65534" 'control_port = "8319"' "$key"
    refuses "a control port that is the event port" "bad.toml:7: control_port is $event, as event_port, and has to be another port" \
        "control_port = $event" "$key"
    refuses "a control port that is the general port" "control_port is $general, as general_port" "control_port = $general" "$key"
    for it in 319 320; do
        refuses "the control port $it where the others are left out" "control_port is $it, as " "event_port " "general_port " \
            "control_port = $it" "$key"
    done
    for it in 1 '"00b0aefffe00000"' '"00b0aefffe0000021"' '"00b0aefffe00000g"'; do
        refuses "the control key $it" "has to be a text of 16 hexadecimal digits" "control_port = $control" "control_key = $it"
        refuses "the control key $it, without a control port" "has to be a text of 16 hexadecimal digits" "control_key = $it"
    done
}

test_settings() {
    if ! has_loopback; then
        skip "settings: loopback is not up"
        return
    fi
    settings >"$room/good.toml"
    test_words
    if ! python3 -c 'import tomllib' 2>/dev/null; then
        skip "settings are looked at: python3 with tomllib (3.11) is not here"
        return
    fi
    test_values
    test_edges
}
