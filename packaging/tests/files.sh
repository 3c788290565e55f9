# shellcheck shell=bash
# Tests of the other files: manual page, unit, sysctl file, and shellcheck of all scripts.

keys_are_in() {
    # (all are missing where the source names none)
    local key missing=" all"
    while read -r key; do
        missing=${missing# all}
        grep -qE "(^|[^a-z_])$key([^a-z_]|$)" "$1" || missing+=" $key"
    done < <(sed -n 's/.*Key::[A-Za-z]* => "\([a-z_]*\)".*/\1/p' "$top/crates/ptu_config/src/key.rt")
    [ -z "$missing" ] || { echo "$1 lacks:$missing" && return 1; }
}

verifies() {
    MANPATH=$room/man: systemd-analyze verify "$1" >"$room/verified" 2>&1 && [ ! -s "$room/verified" ]
}

# What the unit promises, line by line: systemd-analyze finds no fault with a unit that lacks any of these.
test_promises() {
    local it
    while read -r it; do
        holds "ptpuni.service has the line $it" grep -qxF -- "$it" "$here/ptpuni.service"
    done <<'END'
Wants=network-online.target time-sync.target
After=network-online.target time-sync.target
StartLimitIntervalSec=0
Type=exec
ExecStart=/usr/local/lib/ptpuni/ptpuni-serve /etc/ptpuni/serve.toml
EnvironmentFile=-/etc/default/ptpuni
Restart=always
RestartSec=2
RestartPreventExitStatus=0 64 65 66
ExecReload=/usr/local/bin/ptpuni-ctl /etc/ptpuni/serve.toml reload
ExecStop=-/usr/local/bin/ptpuni-ctl /etc/ptpuni/serve.toml stop
DynamicUser=yes
AmbientCapabilities=CAP_NET_BIND_SERVICE
CapabilityBoundingSet=CAP_NET_BIND_SERVICE
CPUSchedulingPolicy=rr
CPUSchedulingPriority=10
NoNewPrivileges=yes
ProtectSystem=strict
ProtectHome=yes
PrivateTmp=yes
RestrictAddressFamilies=AF_INET AF_NETLINK AF_UNIX
WantedBy=multi-user.target
END
    # (a key twice would add to the first one, or take its place)
    holds "no key of ptpuni.service stands twice" [ -z "$(grep -oE '^[A-Za-z]+=' "$here/ptpuni.service" | sort | uniq -d)" ]
}

test_unit() {
    # (it looks at the units of the machine, too, which may have faults of their own)
    printf '[Service]\nExecStart=/bin/true\n' >"$room/plain.service"
    if ! has systemd-analyze || ! verifies "$room/plain.service"; then
        skip "ptpuni.service: systemd-analyze (Debian package systemd) is not here, or finds fault with a unit that has none"
        return
    fi
    mkdir -p "$room/man/man1"
    cp "$here/ptpuni.1" "$here/ptpuni-ctl.1" "$room/man/man1/"
    cp "$here/ptpuni-ctl" "$room/ptpuni-ctl"
    sed "s|=-*/usr/local/[^ ]*/|=$room/|" "$here/ptpuni.service" >"$room/ptpuni.service"
    if has man; then
        holds "ptpuni.service verifies" verifies "$room/ptpuni.service"
    else
        sed -i '/^Documentation=/d' "$room/ptpuni.service"
        holds "ptpuni.service verifies (without its Documentation, since man is not here)" verifies "$room/ptpuni.service"
    fi
    sed 's/^Restart=/Restarts=/' "$room/ptpuni.service" >"$room/broken.service"
    holds "a unit with a key that is none does not" fails verifies "$room/broken.service"
}

page_is_well() {
    [ -z "$(man --warnings -l "$1" 2>&1 >/dev/null)" ]
}

groff_is_well() {
    [ -z "$(groff -man -ww -z "$1" 2>&1)" ]
}

test_page() {
    printf '.TH X 1\n.SH NAME\nx \\- y\n\\*[no-such-string]\n' >"$room/broken.1"
    if has man && ! page_is_well "$room/broken.1"; then
        holds "man finds nothing in $1" page_is_well "$here/$1"
    else
        skip "$1: man (Debian package man-db) is not here, or does not find what is wrong"
    fi
    if has groff && ! groff_is_well "$room/broken.1"; then
        holds "groff finds nothing in $1" groff_is_well "$here/$1"
    else
        skip "$1: groff is not here, or does not find what is wrong"
    fi
}

is_number() {
    [[ $1 =~ ^[0-9]+$ ]]
}

test_sysctl() {
    local key value
    # (4 MiB, of which docs/OPERATING.md has what they hold)
    for key in rmem_default wmem_default; do
        holds "the sysctl file has $key" grep -qx "net.core.$key = 4194304" "$here/ptpuni-sysctl.conf"
    done
    while IFS=' =' read -r key value; do
        case $key in '' | '#'*) continue ;; esac
        holds "sysctl $key = $value is a number" is_number "$value"
        # (older systems show what is the whole machine's only outside of namespaces of the network)
        if [ -e /proc/sys/net/core/rmem_max ]; then
            holds "the system has $key" test -e "/proc/sys/${key//.//}"
        else
            skip "sysctl $key: /proc/sys does not show the sizes of sockets here"
        fi
    done <"$here/ptpuni-sysctl.conf"
}

test_files() {
    local it
    holds "the manual page has all settings" keys_are_in "$here/ptpuni.1"
    holds "the launcher knows all settings" keys_are_in "$here/ptpuni-serve"
    test_promises
    test_unit
    test_page ptpuni.1
    test_page ptpuni-ctl.1
    test_sysctl
    for it in "$top/ptpuni" "$here/ptpuni-serve" "$here/make-deb" "$here"/deb/* "$here/test.sh"; do
        # (other versions have other remarks)
        if has shellcheck; then holds "shellcheck $it" shellcheck -x -P "$here" --severity=warning "$it"; else skip "shellcheck $it: it is not here"; fi
    done
}
