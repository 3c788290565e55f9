# shellcheck shell=bash
# What the tests of this folder share: how one is counted, what is waited for, and an address that is this run's own.

pass() {
    passed=$((passed + 1))
}

fail() {
    failed=$((failed + 1))
    echo "FAILED: $*"
}

skip() {
    skipped=$((skipped + 1))
    echo "skipped: $*"
}

# A test: its name, and a command that is to hold.
holds() {
    local name=$1
    shift
    if "$@"; then pass; else fail "$name"; fi
}

# A test: its name, the status, words that are said on standard output or error, and the command.
says() {
    local name=$1 status=$2 words=$3 ended said
    shift 3
    said=$("$@" 2>&1 </dev/null)
    ended=$?
    if [ "$ended" -ne "$status" ]; then
        fail "$name: status $ended, and $status is wanted: $said"
    elif [[ $said != *"$words"* ]]; then
        fail "$name: it does not say '$words': $said"
    else
        pass
    fi
}

fails() {
    ! "$@"
}

# Whether a command says these words.
said_by() {
    "${@:2}" 2>&1 </dev/null | grep -qF "$1"
}

has() {
    command -v "$1" >/dev/null
}

count() {
    [ "$(wc -l <"$1")" -eq "$2" ]
}

# Waits until a file has something in it.
wait_for() {
    local until=$((SECONDS + PATIENCE))
    while [ ! -s "$1" ]; do
        ((SECONDS < until)) || return
        sleep 0.05
    done
}

# Waits until a command holds.
wait_until() {
    local until=$((SECONDS + PATIENCE))
    while ! "$@"; do
        ((SECONDS < until)) || return
        sleep 0.2
    done
}

# An address of loopback that is this run's own, so that no other run, and hardly any program, has ports there; the one
# beside it; and two ports that no socket has at all, as far as ss tells.
find_address() {
    local low
    address=127.$((64 + ($$ >> 16) % 64)).$(($$ >> 8 & 255)).$((($$ & 127) * 2))
    beside=${address%.*}.$((${address##*.} + 1))
    for low in $(seq 21319 2 21519); do
        event=$low
        general=$((low + 1))
        has ss || return
        [ -n "$(ss -Huan "sport = :$event or sport = :$general" 2>/dev/null)" ] || return
    done
}

# Whether a socket can be had at that address: loopback is there and up.
has_loopback() {
    if has ip; then
        [[ $(ip -4 route get "$address" 2>/dev/null) == local\ * ]]
    elif has python3; then
        python3 -c 'import socket, sys; socket.socket(socket.AF_INET, socket.SOCK_DGRAM).bind((sys.argv[1], 0))' "$address" \
            2>/dev/null
    fi
}

# Whether addresses of other machines are refused to a socket, and ip tells which they are.
knows_addresses() {
    has ip && [ "$(cat /proc/sys/net/ipv4/ip_nonlocal_bind 2>/dev/null)" != 1 ]
}

# A control port of this run's own, where no socket has it or the next number.
find_control() {
    local low=$((30000 + $$ % 1000 * 10))
    for control in $(seq "$low" 2 $((low + 400))); do
        python3 -c 'import socket, sys
for it in (0, 1): socket.socket(socket.AF_INET, socket.SOCK_DGRAM).bind(("127.0.0.1", int(sys.argv[1]) + it))' "$control" 2>/dev/null &&
            return
    done
}

# Whether the program that is built knows the control port. (A key that is none is refused before all else.)
knows_control() {
    [ "$("$program" serve <<<'control_port = 1' 2>/dev/null)" != "settings unknown" ]
}
