# shellcheck shell=bash
# Tests of ptpuni-ctl beside a program that speaks as `ptpuni serve` does at its control port, and of what the launcher, the
# unit and the pages have of it. Files in $room change what that program does: `silent`, `stale`, `odd`, `lazy` and `endless`.
# It is held to the formats of docs/FORMATS.md. Where a program is built that knows the keys, that is spoken to, too.

make_stand_in() {
    cat >"$room/stand-in" <<'END'
import os, re, socket, sys, time
room, port, key = sys.argv[1], int(sys.argv[2]), sys.argv[3]
at = {"class": 84, "capacity": 640000, "held": 1040, "live_announce": 2, "live_sync": 2, "live_delay_resp": 1, "granted": 5,
      "refused": 1, "sent": 1234, "failed": 3, "round": 4294967296, "moment": 61000000500}


def is_there(name):
    return os.path.exists(f"{room}/{name}")


def answer(command):
    words = command.split(" ")
    name, value = words[0], words[1] if len(words) == 2 and re.fullmatch("[0-9]+", words[1]) else None
    if name == "class" and value:
        if int(value) > 255: return "bad class\n"
        at["class"] = int(value)
        return "ok\n"
    if name == "capacity" and value:
        if not 1 <= int(value) <= 16777216: return "bad capacity\n"
        at["capacity"] = int(value)
        return "ok\nshed %d\n" % (2 if int(value) < at["held"] else 0)
    if command == "status": return "ok\n" + "".join(f"{it} {at[it]}\n" for it in at)
    return "ok\n" if command in ("stop", "stop cancel") else "bad words\n"


own = socket.socket(socket.AF_INET, socket.SOCK_DGRAM)
own.bind(("127.0.0.1", port))
print("ready", flush=True)
while True:
    datagram, sender = own.recvfrom(2048)
    if is_there("silent") or sender != ("127.0.0.1", port + 1): continue
    said = re.fullmatch(rb"([0-9a-fA-F]{16}) ([a-z0-9 ]+)\n?", datagram)
    if not said or said[1].decode() != key: continue
    command = said[2].decode()
    with open(f"{room}/heard", "a") as heard: print(command, file=heard)
    if is_there("stale"): own.sendto(b"ok\n" if command.startswith("capacity") else b"ok\nshed 9\n", sender)
    if is_there("odd"): own.sendto(b"yes\n", sender)
    else: own.sendto(answer(command).encode(), sender)
    if command.startswith("stop") and not is_there("endless"):
        time.sleep(1 if is_there("lazy") else 0)
        own.close()
        open(f"{room}/closed", "w").close()
        time.sleep(0.5)
        break
END
    cp "$here/ptpuni-ctl" "$room/ptpuni-ctl"
    chmod 755 "$room/ptpuni-ctl"
}

ctl() {
    "$room/ptpuni-ctl" "$@"
}

# The settings of the test, with lines in place of those of the same keys.
control_settings() {
    settings_with "$room/ctl.toml" "control_port = $control" 'control_key = "0123456789ABcdef"' "$@"
}

begin_stand_in() {
    rm -f "$room"/{heard,closed,silent,stale,odd,lazy,endless}
    : >"$room/ready"
    python3 "$room/stand-in" "$room" "$control" 0123456789ABcdef >"$room/ready" 2>&1 &
    stand_in=$!
    wait_for "$room/ready"
}

end_stand_in() {
    kill "$stand_in" 2>/dev/null
    wait "$stand_in" 2>/dev/null
}

# Whether a command writes just this on standard output, and nothing on the other one.
writes() {
    local wanted=$1
    shift
    [ "$("$@" 2>&1 </dev/null)" = "$wanted" ] || { "$@" && return 1; }
}

# What the grandmaster was told since this was asked last, with commas between.
was_told() {
    local told
    told=$(paste -sd, "$room/heard" 2>/dev/null)
    rm -f "$room/heard"
    [ "$told" = "$1" ] || { echo "told: $told" && return 1; }
}

test_ctl_words() {
    local it
    says "ctl: help" 0 "usage: ptpuni-ctl" ctl --help
    for it in status "class C" "capacity N" reload "stop \[cancel\]"; do
        holds "ctl: the help has $it" grep -qE "^  $it +" <(ctl --help)
        holds "ctl: its manual page has ${it%% *}" grep -qE "^\.(B|BI) \"?${it%% *}" "$here/ptpuni-ctl.1"
    done
    says "ctl: its version is the launcher's" 0 "ptpuni: commit and kit unknown" ctl --version
    says "ctl: no words" 64 "required: SETTINGS, COMMAND" ctl
    says "ctl: no command" 64 "required: COMMAND" ctl "$room/ctl.toml"
    says "ctl: another command" 64 "there is no command statsu: is status meant?" ctl "$room/ctl.toml" statsu
    says "ctl: a command that is like none" 64 "there is no command x: status, class," ctl "$room/ctl.toml" x
    says "ctl: another option" 64 "--fast" ctl --fast "$room/ctl.toml" status
    for it in "class" "class x" "class 1 2" "class -1" "class +1" "class 1e1" "class ٣" "class 12345678901234567890"; do
        # shellcheck disable=SC2086
        says "ctl: $it" 64 "behind class stands a whole number from 0 to 255" ctl "$room/ctl.toml" $it
    done
    says "ctl: capacity" 64 "behind capacity stands a whole number from 1 to 16777216" ctl "$room/ctl.toml" capacity
    says "ctl: stop at once" 64 "behind stop stands \`cancel' or nothing" ctl "$room/ctl.toml" stop now
    says "ctl: stop cancel cancel" 64 "behind stop stands" ctl "$room/ctl.toml" stop cancel cancel
    says "ctl: status of something" 64 "behind status stands nothing" ctl "$room/ctl.toml" status class
    says "ctl: --prometheus of another command" 64 "is for status" ctl --prometheus "$room/ctl.toml" stop
    says "ctl: --wait of another command" 64 "is for stop" ctl --wait 3 "$room/ctl.toml" status
    mkdir -p "$room/alone"
    cp "$here/ptpuni-ctl" "$room/alone/"
    says "ctl: without the launcher" 69 "ptpuni-serve, which reads settings, is neither in $room/alone nor in $room/lib/ptpuni" \
        "$room/alone/ptpuni-ctl" "$room/ctl.toml" status
    install -D "$here/ptpuni-serve" "$room/placed/lib/ptpuni/ptpuni-serve"
    install -D "$here/ptpuni-ctl" "$room/placed/bin/ptpuni-ctl"
    says "ctl: as it is installed" 0 "ptpuni: commit and kit unknown" "$room/placed/bin/ptpuni-ctl" --version
}

test_ctl_settings() {
    says "ctl: no file" 66 "ptpuni-ctl: $room/nowhere.toml: is no file that this user" ctl "$room/nowhere.toml" status
    settings >"$room/ctl.toml"
    for it in status "class 84" reload stop; do
        # shellcheck disable=SC2086
        says "ctl: settings without the keys, $it" 65 "ctl.toml: has no control_port: nobody can speak to what runs by it" \
            ctl "$room/ctl.toml" $it
        # shellcheck disable=SC2086
        holds "ctl: that is one line, $it" [ "$(ctl "$room/ctl.toml" $it 2>&1 | wc -l)" -eq 1 ]
    done
    control_settings "control_key "
    says "ctl: no key beside a port" 65 "ctl.toml: control_key is missing" ctl "$room/ctl.toml" status
    control_settings "control_port "
    says "ctl: no port beside a key" 65 "has no control_port" ctl "$room/ctl.toml" status
    control_settings 'control_key = "0123456789abcde"'
    says "ctl: a key of 15 digits" 65 "a text of 16 hexadecimal digits" ctl "$room/ctl.toml" status
    control_settings "capacity = "
    says "ctl: no TOML" 65 "is no TOML" ctl "$room/ctl.toml" stop
}

test_ctl_answers() {
    control_settings
    holds "ctl: status, as it is answered" writes "ok
class 84
capacity 640000
held 1040
live_announce 2
live_sync 2
live_delay_resp 1
granted 5
refused 1
sent 1234
failed 3
round 4294967296
moment 61000000500" ctl "$room/ctl.toml" status
    holds "ctl: class" writes ok ctl "$room/ctl.toml" class 110
    holds "ctl: a capacity for which nothing is shed" writes "ok"$'\n'"shed 0" ctl "$room/ctl.toml" capacity 1040
    holds "ctl: a capacity for which something is shed" writes "ok"$'\n'"shed 2" ctl "$room/ctl.toml" capacity 1039
    holds "ctl: it was told so" was_told "status,class 110,capacity 1040,capacity 1039"
    says "ctl: a class that is refused" 1 "refuses \`class 256' (bad class): a whole number from 0 to 255" \
        ctl "$room/ctl.toml" class 256
    says "ctl: a capacity that is refused" 1 "refuses \`capacity 0' (bad capacity): a whole number from 1 to 16777216" \
        ctl "$room/ctl.toml" capacity 0
    says "ctl: a disk that is full" 67 "standard output: No space left on device" bash -c '"$0" "$1" status >/dev/full' \
        "$room/ptpuni-ctl" "$room/ctl.toml"
    control_settings "capacity = 0" "classs = 3"
    says "ctl: other settings that are refused do not matter" 0 "class 110" ctl "$room/ctl.toml" status
}

# The time that a command takes, in hundredths of a second, and its status.
timed() {
    local begin=${EPOCHREALTIME/./} status
    "$@" >/dev/null 2>&1
    status=$?
    hundredths=$(((${EPOCHREALTIME/./} - begin) / 10000))
    return "$status"
}

takes_a_second() {
    timed ctl "$room/ctl.toml" status
    [ "$?" -eq 69 ] && ((hundredths >= 100))
}

hold_answer() {
    : >"$room/held"
    python3 -c 'import socket, sys, time
it = socket.socket(socket.AF_INET, socket.SOCK_DGRAM)
it.bind(("127.0.0.1", int(sys.argv[1]) + 1))
print("held", flush=True)
time.sleep(float(sys.argv[2]))' "$control" "$1" >"$room/held" &
    holder=$!
    wait_for "$room/held"
}

test_ctl_silence() {
    local holder
    control_settings
    touch "$room/silent"
    says "ctl: nobody answers" 69 "no answer from 127.0.0.1:$control within a second" ctl "$room/ctl.toml" status
    holds "ctl: an answer is waited for, for a second" takes_a_second
    rm "$room/silent"
    control_settings 'control_key = "0123456789abcdef"'
    says "ctl: another key" 69 "is its control_key another one since its start" ctl "$room/ctl.toml" class 84
    control_settings
    touch "$room/stale"
    holds "ctl: a late answer to another command is passed over, by class" writes ok ctl "$room/ctl.toml" class 84
    holds "ctl: and by capacity" writes $'ok\nshed 0' ctl "$room/ctl.toml" capacity 640000
    says "ctl: and by status" 0 $'ok\nclass 84\ncapacity 640000' ctl "$room/ctl.toml" status
    rm "$room/stale"
    touch "$room/odd"
    says "ctl: an answer that is none" 69 "no answer" ctl "$room/ctl.toml" status
    rm "$room/odd"
    hold_answer 600
    says "ctl: the port for the answer is in use" 69 "127.0.0.1:$((control + 1)), the port for the answer, is in use, by another" \
        ctl "$room/ctl.toml" status
    holds "ctl: it is waited for, for a second" takes_a_second
    kill "$holder"
    wait "$holder" 2>/dev/null
    hold_answer 0.4
    says "ctl: another one that ends soon is waited for" 0 "class 84" ctl "$room/ctl.toml" status
    wait "$holder"
    rm -f "$room/heard"
}

# What `reload` tells: the lines of settings, the commands in their order, and what it prints.
reloads() {
    local told=$1 printed=$2
    shift 2
    control_settings "$@"
    rm -f "$room/heard"
    writes "$printed" ctl "$room/ctl.toml" reload && was_told "$told"
}

test_ctl_reload() {
    ctl "$room/ctl.toml" capacity 640 >/dev/null
    holds "ctl: reload where nothing is changed" reloads status $'capacity 640: as before\nclass 84: as before'
    holds "ctl: reload of a capacity that falls, which comes first" reloads "status,capacity 639,class 110" \
        $'capacity 639: shed 2\nclass 110: ok' "class = 110" "capacity = 639"
    holds "ctl: reload of a capacity that rises, which comes last" reloads "status,class 104,capacity 1040" \
        $'class 104: ok\ncapacity 1040: shed 0' "class = 104" "capacity = 1_040" "domain = 5"
    holds "ctl: reload of a class that is left out, which is 84" reloads "status,class 84" \
        $'capacity 1040: as before\nclass 84: ok' "capacity = 1040"
    control_settings "capacity = 2000" "classs = 110"
    rm -f "$room/heard"
    says "ctl: settings that are refused are not reloaded" 65 "classs is no setting: is class meant?" ctl "$room/ctl.toml" reload
    holds "ctl: and nothing of them is told" was_told ""
}

# Ends the program that stands in, by these words, and begins it anew.
is_ended() {
    local wanted=$1
    shift
    rm -f "$room"/{heard,closed}
    writes ok ctl "$@" "$room/ctl.toml" $wanted && was_told "$wanted"
}

test_ctl_stop() {
    local it
    control_settings
    for it in stop "stop cancel"; do
        touch "$room/lazy"
        holds "ctl: $it" is_ended "$it"
        holds "ctl: the end is waited for, $it" [ -e "$room/closed" ]
        says "ctl: nobody listens after $it" 69 "nobody listens at 127.0.0.1:$control" ctl "$room/ctl.toml" "${it% *}"
        wait "$stand_in"
        begin_stand_in
    done
    touch "$room/endless"
    says "ctl: it does not end" 69 "has taken \`stop', and has not ended within 0.3 s" ctl --wait 0.3 "$room/ctl.toml" stop
    says "ctl: the end is not waited for" 0 ok ctl --wait 0 "$room/ctl.toml" stop
    rm "$room/endless"
    sleep 1.2 &
    MAINPID=$! says "ctl: under systemd the launcher is waited for, too" 0 ok ctl "$room/ctl.toml" stop
    holds "ctl: which has ended then" fails kill -0 $! 2>/dev/null
    wait "$stand_in"
    begin_stand_in
}

test_ctl_prometheus() {
    local who="grandmaster=\"$address\"" name
    control_settings
    holds "ctl: --prometheus" writes "# HELP ptpuni_up Whether the grandmaster answers at its control port.
# TYPE ptpuni_up gauge
ptpuni_up{$who} 1
# HELP ptpuni_class The clockClass that is announced.
# TYPE ptpuni_class gauge
ptpuni_class{$who} 84
# HELP ptpuni_capacity_messages_per_second What all live grants may use together.
# TYPE ptpuni_capacity_messages_per_second gauge
ptpuni_capacity_messages_per_second{$who} 40000
# HELP ptpuni_held_messages_per_second What the live grants use of the capacity.
# TYPE ptpuni_held_messages_per_second gauge
ptpuni_held_messages_per_second{$who} 65
# HELP ptpuni_live_grants The grants that are live, by kind.
# TYPE ptpuni_live_grants gauge
ptpuni_live_grants{$who,kind=\"announce\"} 2
ptpuni_live_grants{$who,kind=\"sync\"} 2
ptpuni_live_grants{$who,kind=\"delay_resp\"} 1
# HELP ptpuni_granted_total Requests that were granted.
# TYPE ptpuni_granted_total counter
ptpuni_granted_total{$who} 5
# HELP ptpuni_refused_total Requests within the profile that did not fit.
# TYPE ptpuni_refused_total counter
ptpuni_refused_total{$who} 1
# HELP ptpuni_sent_total Datagrams that were sent.
# TYPE ptpuni_sent_total counter
ptpuni_sent_total{$who} 1234
# HELP ptpuni_failed_total Sends and receives that failed.
# TYPE ptpuni_failed_total counter
ptpuni_failed_total{$who} 3
# HELP ptpuni_rounds_total Rounds that were done.
# TYPE ptpuni_rounds_total counter
ptpuni_rounds_total{$who} 4294967296
# HELP ptpuni_moment_seconds The time since the start, by the clock of the grandmaster.
# TYPE ptpuni_moment_seconds gauge
ptpuni_moment_seconds{$who} 61.0000005" ctl --prometheus "$room/ctl.toml" status
    ctl "$room/ctl.toml" capacity 9 >/dev/null
    says "ctl: sixteenths of a message" 0 "ptpuni_capacity_messages_per_second{$who} 0.5625"$'\n' \
        ctl "$room/ctl.toml" --prometheus status
    ctl --prometheus "$room/ctl.toml" status >"$room/metrics"
    for name in $(grep -oE '\bptpuni_[a-z_]+' "$top/docs/OPERATING.md" | sort -u); do
        holds "docs/OPERATING.md: the metric $name" grep -qE "^$name\{" "$room/metrics"
    done
    holds "docs/OPERATING.md: six metrics or more" [ "$(grep -oE '\bptpuni_[a-z_]+' "$top/docs/OPERATING.md" | sort -u | wc -l)" -ge 6 ]
    touch "$room/silent"
    says "ctl: --prometheus of one who does not answer" 69 "ptpuni_up{$who} 0"$'\n' ctl --prometheus "$room/ctl.toml" status
    holds "ctl: has nothing else" [ "$(ctl --prometheus "$room/ctl.toml" status 2>/dev/null | grep -vc '^#')" -eq 1 ]
    rm "$room/silent"
}

# With a python3 that has no tomllib: it runs scripts, and not what is handed over by -c.
test_ctl_without_tomllib() {
    local python3 it
    python3=$(python3 -c 'import sys; print(sys.executable)')
    mkdir -p "$room/old"
    printf '#!/bin/sh\n[ "$1" != -c ] || exit 3\nexec %s "$@"\n' "$python3" >"$room/old/python3"
    chmod 755 "$room/old/python3"
    ctl "$room/ctl.toml" class 84 >/dev/null
    control_settings "class = 110 # a test" "  capacity = 640"
    rm -f "$room/heard"
    says "ctl: without tomllib" 0 "class 84" env PATH="$room/old:$PATH" "$room/ptpuni-ctl" "$room/ctl.toml" status
    says "ctl: without tomllib, reload" 0 "class 110: ok" env PATH="$room/old:$PATH" "$room/ptpuni-ctl" "$room/ctl.toml" reload
    holds "ctl: by what the lines say" was_told "status,status,class 110,capacity 640"
    for it in "class = 0x54" "capacity = 1_000" "'class' = \"84\" 'x'"; do
        control_settings "$it"
        says "ctl: without tomllib a line of another form is not guessed: $it" 65 "cannot be read without python3 with tomllib" \
            env PATH="$room/old:$PATH" "$room/ptpuni-ctl" "$room/ctl.toml" reload
    done
    settings >"$room/ctl.toml"
    says "ctl: without tomllib and without the keys" 65 "has no control_port" env PATH="$room/old:$PATH" "$room/ptpuni-ctl" \
        "$room/ctl.toml" status
}

# What the launcher says of the control port, as of the other ports, and of settings alone.
test_ctl_launcher() {
    settings_with "$room/low.toml" 'ip = "127.0.0.1"' "control_port = $((event - 1))" 'control_key = "0123456789abcdef"'
    says "ctl: an answer at a port of the grandmaster" 0 "ptpuni-ctl has to be answered at 127.0.0.1:$event, which is a port of" \
        launch --check "$room/low.toml"
    settings_with "$room/ctl.toml" "control_port = $control" 'control_key = "0123456789ABcdef"'
    begin_stand_in
    if has ss; then
        says "ctl: the control port is in use" 69 "control_port = $control is in use at 127.0.0.1, by " launch --check "$room/ctl.toml"
    else
        skip "ctl: the control port in use: ss (iproute2) is not here"
    fi
    says "ctl: the settings alone, as while it runs" 0 "all is well with the settings of" launch --settings "$room/ctl.toml"
    end_stand_in
    holds "ctl: values of keys" writes $'84\n\n640' launch --tell class,new_capacity,capacity "$room/ctl.toml"
}

# A program that is told to stop has done less than all rounds, and is not started anew.
test_ctl_stopped() {
    rm -f "$room/starts"
    settings_with "$room/good.toml" "rounds = 5"
    echo "rounds 4 sent 7 failed 0 granted 0 refused 0 held 0" >"$room/line"
    # (a second start would end with this status)
    echo 2 >"$room/times"
    echo 67 >"$room/status"
    says "ctl: a program that is told to stop" 0 "it was told to stop" launch "$room/good.toml"
    holds "ctl: is not started anew" count "$room/starts" 1
    rm "$room/starts"
    says "ctl: and its closing line is said" 0 "rounds 4 sent 7" launch "$room/good.toml"
    rm "$room/line" "$room/starts"
    says "ctl: one that has done all rounds is started anew" 67 "rounds 5 sent 0" launch "$room/good.toml"
    holds "ctl: once more" count "$room/starts" 2
    rm -f "$room/starts" "$room/times" "$room/status"
}

# The order of a stop by systemd: ExecStop, with the launcher's number in MAINPID, and then SIGTERM to what is left. The launcher
# has ended by then, with the closing line, though its program lets go of its port before it says that.
test_ctl_as_systemd() {
    local launcher
    cat >"$room/served" <<END
#!/bin/sh
[ "\$1" != show ] || { echo "end 0"; exit; }
cat >/dev/null
python3 "$room/stand-in" "$room" $control 0123456789ABcdef >"$room/ready"
echo "rounds 4 sent 7 failed 0 granted 0 refused 0 held 0"
END
    chmod 755 "$room/served"
    control_settings "rounds = 5"
    : >"$room/ready"
    "$room/ptpuni-serve" --program "$room/served" "$room/ctl.toml" >"$room/journal" 2>&1 </dev/null &
    launcher=$!
    wait_for "$room/ready"
    MAINPID=$launcher says "ctl: as systemd: ExecStop" 0 ok ctl "$room/ctl.toml" stop
    holds "ctl: as systemd: nothing is left for SIGTERM" fails kill -TERM "$launcher" 2>/dev/null
    wait "$launcher"
    holds "ctl: as systemd: the status of the launcher" [ $? -eq 0 ]
    holds "ctl: as systemd: the closing line is in the journal, once" [ "$(grep -c "^rounds 4 sent 7" "$room/journal")" -eq 1 ]
    holds "ctl: as systemd: nothing was started anew" fails grep -q "starts anew" "$room/journal"
}

# Where the settings were changed meanwhile, a start anew goes by them; not by ones that are refused.
test_ctl_anew() {
    local it
    for it in "class = 110:class = 110" "class = 300:class = 84"; do
        rm -f "$room/starts"
        settings_with "$room/good.toml" "class = 84"
        settings_with "$room/next.toml" "${it%%:*}"
        printf '%s\n' "cp '$room/next.toml' '$room/good.toml'" >"$room/between"
        echo 2 >"$room/times"
        echo 67 >"$room/status"
        says "ctl: a start anew with the ${it%%:*}" 67 "starts anew" launch "$room/good.toml"
        holds "ctl: goes by the ${it#*:}" grep -qx "${it#*:}" "$room/given"
    done
    rm -f "$room/starts" "$room/times" "$room/status" "$room/between"
}

# A real program, where one is built that knows the keys.
test_ctl_program() {
    local served
    control_settings "rounds = 4294967295"
    if [ -z "$program" ]; then
        skip "ctl: beside the program: it is not built (./ptpuni builds it)"
        return
    elif ! knows_control; then
        skip "ctl: beside the program: it does not know control_port"
        return
    fi
    "$room/ptpuni-serve" --program "$program" "$room/ctl.toml" >"$room/journal" 2>&1 </dev/null &
    served=$!
    wait_until answers
    says "ctl: the program: status" 0 $'ok\nclass 84\ncapacity 640\nheld 0\nlive_announce 0\nlive_sync 0\nlive_delay_resp 0' \
        ctl "$room/ctl.toml" status
    holds "ctl: the program: class" writes ok ctl "$room/ctl.toml" class 110
    holds "ctl: the program: capacity" writes $'ok\nshed 0' ctl "$room/ctl.toml" capacity 320
    says "ctl: the program: both are so then" 0 $'ok\nclass 110\ncapacity 320\n' ctl "$room/ctl.toml" status
    says "ctl: the program: a class that is refused" 1 "(bad class)" ctl "$room/ctl.toml" class 256
    says "ctl: the program: a capacity that is refused" 1 "(bad capacity)" ctl "$room/ctl.toml" capacity 16777217
    holds "ctl: the program: reload" writes $'class 84: ok\ncapacity 640: shed 0' ctl "$room/ctl.toml" reload
    says "ctl: the program: --prometheus" 0 "ptpuni_up{grandmaster=\"$address\"} 1" ctl --prometheus "$room/ctl.toml" status
    holds "ctl: the program: stop" writes ok ctl "$room/ctl.toml" stop
    wait "$served"
    holds "ctl: the program: its launcher ends with 0" [ $? -eq 0 ]
    holds "ctl: the program: with its closing line" grep -qE "^rounds [0-9]+ sent 0 failed 0 granted 0 refused 0 held 0$" "$room/journal"
}

answers() {
    ctl "$room/ctl.toml" status >/dev/null 2>&1
}

test_ctl() {
    local stand_in hundredths
    if ! has_loopback || ! python3 -c 'import tomllib' 2>/dev/null; then
        skip "ptpuni-ctl: loopback is not up, or python3 with tomllib (3.11) is not here"
        return
    fi
    make_stand_in
    test_ctl_words
    test_ctl_settings
    begin_stand_in
    test_ctl_answers
    test_ctl_silence
    test_ctl_reload
    test_ctl_stop
    test_ctl_prometheus
    test_ctl_without_tomllib
    end_stand_in
    test_ctl_launcher
    test_ctl_stopped
    test_ctl_as_systemd
    test_ctl_anew
    test_ctl_program
}
