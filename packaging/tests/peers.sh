# shellcheck shell=bash
# Tests with ptp4l: by its settings in examples/ it follows `ptpuni serve`, and `ptpuni slave` follows it. They run in two
# network namespaces of their own, joined by a pair of interfaces, as docs/INTEROP.md does; without rights, where the system lets
# anyone make namespaces in which he is root to himself. No clock is steered.

# Two namespaces, held by two processes that sleep, with an interface eth0 in each: 192.0.2.1 and 192.0.2.2. What runs a
# command in them stands in the lists `in_gm` and `in_sl`. (A list and no function: so a process's number is the command's.)
make_namespaces() {
    local apart=(unshare -rn) enter=(nsenter -U --preserve-credentials -n)
    if [ "$(id -u)" -eq 0 ]; then apart=(unshare -n) enter=(nsenter -n); fi
    "${apart[@]}" sleep 900 &
    gm=$!
    wait_until is_settled "$gm" $$
    is_apart "$gm" $$ || return
    in_gm=("${enter[@]}" -t "$gm")
    "${in_gm[@]}" unshare -n sleep 900 &
    sl=$!
    wait_until is_settled "$sl" "$gm"
    is_apart "$sl" "$gm" || return
    in_sl=("${enter[@]}" -t "$sl")
    "${in_gm[@]}" ip link add eth0 type veth peer name eth0 netns "$sl" &&
        "${in_gm[@]}" ip addr add 192.0.2.1/24 dev eth0 && "${in_sl[@]}" ip addr add 192.0.2.2/24 dev eth0 &&
        "${in_gm[@]}" ip link set eth0 up && "${in_sl[@]}" ip link set eth0 up &&
        "${in_gm[@]}" ip link set lo up && "${in_sl[@]}" ip link set lo up
}

# Whether a process sleeps in another namespace than a second one has.
is_apart() {
    [ "$(cat "/proc/$1/comm" 2>/dev/null)" = sleep ] && ! [ "/proc/$1/ns/net" -ef "/proc/$2/ns/net" ]
}

# Or whether it is gone, since it may not have one.
is_settled() {
    ! kill -0 "$1" 2>/dev/null || is_apart "$@"
}

# Starts a command in the background, with an input and a log, and keeps its number.
begin() {
    local input=$1 log=$2
    shift 2
    "$@" <"$input" >"$log" 2>&1 &
    begun+=("$!")
}

end_begun() {
    kill "${begun[@]}" 2>/dev/null
    wait "${begun[@]}" 2>/dev/null
    begun=()
}

# ptp4l by an example's settings: the name of its log and of its socket, the example, and what runs it in a namespace.
begin_ptp4l() {
    begin /dev/null "$room/$1.log" "${@:3}" ptp4l -f "$top/examples/$2" -m -q --uds_address="$room/$1.uds"
}

ask_ptp4l() {
    "${in_sl[@]}" timeout 5 pmc -u -b 0 -d 4 -s "$room/sl.uds" -i "$room/pmc.uds" "$@" 2>&1
}

# With `free_running` it takes its time for certain when it is told so.
is_slave() {
    ask_ptp4l 'SET SYNCHRONIZATION_UNCERTAIN_NP 0' >/dev/null
    grep -q " to SLAVE on " "$room/sl.log"
}

# It has used a Delay_Resp.
has_delay() {
    ask_ptp4l 'GET CURRENT_DATA_SET' | grep -E 'meanPathDelay +-?[0-9.]+' | grep -qvE ' 0\.0$'
}

test_ptp4l_follows() {
    sed "$here_to_there" "$top/examples/serve.toml" >"$room/serve.toml"
    begin_ptp4l sl ptp4l-slave.cfg "${in_sl[@]}"
    begin "$room/serve.toml" "$room/serve.log" "${in_gm[@]}" "$program" serve
    holds "ptp4l follows the grandmaster by examples/ptp4l-slave.cfg" wait_until is_slave
    holds "and takes its Delay_Resps" wait_until has_delay
    end_begun
}

test_follows_ptp4l() {
    sed "$here_to_there" "$top/examples/slave.toml" >"$room/slave.toml"
    begin_ptp4l gm ptp4l-master.cfg "${in_gm[@]}"
    holds "ptp4l is a grandmaster by examples/ptp4l-master.cfg" wait_until grep -q "assuming the grand master role" "$room/gm.log"
    begin "$room/slave.toml" "$room/slave.log" "${in_sl[@]}" "$program" slave
    holds "the slave follows it" wait_until grep -qE "^round [0-9]+ selected 192\.0\.2\.1$" "$room/slave.log"
    end_begun
}

test_peers() {
    local gm='' sl='' here_to_there
    local -a begun=() in_gm=() in_sl=()
    # The settings of the examples, with addresses of the namespaces, and the ports that ptp4l has.
    here_to_there='s/127\.0\.0\./192.0.2./; /_port/d'
    holds "docs/INTEROP.md makes its settings so, too" grep -qF "sed '$here_to_there'" "$top/docs/INTEROP.md"
    if ! has ptp4l || ! has pmc; then
        skip "ptp4l beside the program: it is not here (Debian package linuxptp)"
    elif [ -z "$program" ]; then
        skip "ptp4l beside the program: the program is not built (./ptpuni builds it)"
    elif ! make_namespaces 2>"$room/namespaces"; then
        skip "ptp4l beside the program: no namespaces here: $(tail -n 1 "$room/namespaces")"
    else
        test_ptp4l_follows
        test_follows_ptp4l
    fi
    kill $gm $sl 2>/dev/null
    wait $gm $sl 2>/dev/null
}
