# shellcheck shell=bash
# Tests of ptpuni-serve with addresses and ports, and with the right to low ports.

# Holds a UDP port until it is let go, and tells its number, and by which name and number its process is known.
hold_port() {
    : >"$room/held"
    python3 -c 'import os, socket, sys, time
it = socket.socket(socket.AF_INET, socket.SOCK_DGRAM)
it.bind((sys.argv[1], 0))
print(it.getsockname()[1], os.getpid(), open("/proc/self/comm").read().strip(), flush=True)
time.sleep(600)' "$1" >"$room/held" &
    holder=$!
    wait_for "$room/held"
    read -r port number name <"$room/held"
    settings_with "$room/held.toml" "general_port = $port"
}

let_go() {
    kill "$number" "$holder" 2>/dev/null
    wait "$holder" 2>/dev/null
}

test_ports_in_use() {
    local it port number name holder
    for it in "$address" 0.0.0.0; do
        hold_port "$it"
        says "a port in use at $it" 69 "general_port = $port is in use at $address, by $name, process $number" \
            launch --check "$room/held.toml"
        let_go
        says "a port at $it that is free again" 0 "all is well" launch --check "$room/held.toml"
    done
    hold_port "$beside"
    says "a port in use at another address" 0 "all is well" launch --check "$room/held.toml"
    let_go
}

# Whether this process has the right to ports below 1024, as the tenth bit of its rights says.
may_bind_low() {
    (((16#$(sed -n 's/^CapEff:[[:space:]]*//p' /proc/self/status) >> 10) & 1))
}

# Runs a command with these rights alone, in the words of setpriv: as root, or as one who is root to himself.
bounded() {
    local -a as=(unshare -r)
    [ "$(id -u)" -ne 0 ] || as=()
    "${as[@]}" setpriv --bounding-set="$1" "${@:2}"
}

test_addresses() {
    local it
    # An address for documentation, which no machine has, and the ones beside the multicast addresses.
    for it in 203.0.113.77 223.255.255.255 240.0.0.1; do
        settings_with "$room/far.toml" "ip = \"$it\""
        says "$it, an address of another machine" 69 "ip = $it is not an address of this machine, which has: " \
            launch --check "$room/far.toml"
    done
    settings_with "$room/near.toml" "ip = \"$beside\""
    says "an address of loopback" 0 "all is well" launch --check "$room/near.toml"
    says "an address of loopback serves this machine alone" 0 "ip = $beside is an address of loopback: it serves clients on" \
        launch --check "$room/near.toml"
    it=$(ip -4 -o address show scope global | awk '{ sub("/.*", "", $4); print $4; exit }')
    if [ -z "$it" ]; then
        skip "an address that is not of loopback: this machine has none"
        return
    fi
    settings_with "$room/near.toml" "ip = \"$it\""
    says "$it, an address of this machine" 0 "all is well" launch --check "$room/near.toml"
    holds "$it is not said to be of loopback" fails said_by "of loopback" launch --check "$room/near.toml"
}

test_rights() {
    local -a nobody=(env)
    # (without ports: 319 and 320)
    settings_with "$room/low.toml" "event_port " "general_port "
    if [ "$(cat /proc/sys/net/ipv4/ip_unprivileged_port_start)" -le 320 ]; then
        skip "the right to low ports: this system has them free for all"
        return
    fi
    ! may_bind_low || nobody=(setpriv --reuid=65534 --regid=65534 --clear-groups env)
    if ! "${nobody[@]}" "$room/ptpuni-serve" --help >/dev/null 2>&1; then
        skip "no rights at all: setpriv is not here, or may not, or nobody else may read $room"
    else
        says "no right to low ports" 69 "event_port = 319 and general_port = 320: this user" \
            "${nobody[@]}" PTPUNI_PROGRAM="$room/fake" "$room/ptpuni-serve" --check "$room/low.toml"
    fi
    if ! bounded -all,+net_bind_service true 2>/dev/null; then
        skip "one right alone: setpriv or unshare is not here, or may not"
        return
    elif has ss && [ -n "$(ss -Huan 'sport = :319 or sport = :320' 2>/dev/null)" ]; then
        skip "one right alone: another program has the ports 319 or 320"
        return
    fi
    says "the right to low ports alone" 0 "all is well" bounded -all,+net_bind_service \
        env PTPUNI_PROGRAM="$room/fake" "$room/ptpuni-serve" --check "$room/low.toml"
    holds "319 and 320 are not remarked" fails said_by "serves only clients that have" bounded -all,+net_bind_service \
        env PTPUNI_PROGRAM="$room/fake" "$room/ptpuni-serve" --check "$room/low.toml"
    settings_with "$room/odd.toml" "event_port "
    says "one port of the two is remarked" 0 "serve: general_port = $general: serves only clients that have" \
        bounded -all,+net_bind_service env PTPUNI_PROGRAM="$room/fake" "$room/ptpuni-serve" --check "$room/odd.toml"
    says "all rights but that to low ports" 69 "event_port = 319 and general_port = 320: this user" \
        bounded -net_bind_service env PTPUNI_PROGRAM="$room/fake" "$room/ptpuni-serve" --check "$room/low.toml"
}

# Without iproute2 it looks at what it can, and says what it does not look at.
test_without_iproute2() {
    mkdir "$room/few"
    ln -s /usr/bin/* "$room/few/"
    rm -f "$room"/few/{ip,ss}
    for it in "ip (Debian package iproute2) is not here" "whether port $event is in use is not looked at" \
        "whether port $general is in use is not looked at" "all is well"; do
        says "without iproute2: $it" 0 "$it" env PATH="$room/few" PTPUNI_ZONEINFO="$room/zones" PTPUNI_PROGRAM="$room/fake" \
            "$room/ptpuni-serve" --check "$room/good.toml"
    done
}

test_network() {
    local it
    if ! has_loopback; then
        skip "addresses and ports: loopback is not up"
        return
    fi
    settings >"$room/good.toml"
    says "both ports are remarked" 0 "serve: event_port = $event and general_port = $general: serves only clients that have" \
        launch --check "$room/good.toml"
    settings_with "$room/same.toml" "general_port = $event"
    says "one port for both" 69 "both $event" launch --check "$room/same.toml"
    if knows_addresses; then
        test_addresses
    else
        skip "addresses: ip (iproute2) is not here, or the system lends addresses that it does not have"
    fi
    if [[ $(ip -4 route get 127.255.255.255 2>/dev/null) == broadcast\ * ]]; then
        settings_with "$room/broad.toml" 'ip = "127.255.255.255"'
        says "a broadcast address" 69 "is a broadcast address" launch --check "$room/broad.toml"
    else
        skip "a broadcast address: ip (iproute2) names none of loopback"
    fi
    test_without_iproute2
    if has ss && has python3; then test_ports_in_use; else skip "ports in use: ss (iproute2) or python3 is not here"; fi
    test_rights
}
