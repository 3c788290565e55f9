# shellcheck shell=bash
# Tests of make-deb, in a checkout whose sources are two empty files, with the program where it is built. The package is made,
# looked at, unpacked, run, installed in a folder, and taken away. No test installs anything on this machine.

# A checkout of its own, with what a package is made of.
make_source() {
    source=$room/source
    mkdir -p "$source"/crates/ptpuni/{src,specs,proofs} "$room/debs"
    cp -r "$top"/{ptpuni,packaging,docs,examples} "$source/"
    touch "$source/crates.txt" "$source/HANDLES" "$source/crates/ptpuni/src/main.rt"
    echo out/ >"$source/.gitignore"
    git -C "$source" init -q
    commit_source 2027-01-02T03:04:05Z
}

# (nothing changes but the moment)
commit_source() {
    git -C "$source" add -A
    GIT_COMMITTER_DATE=$1 git -C "$source" -c user.name="A. Tester" -c user.email=a@example.invalid commit -q --allow-empty -m "A test"
    commit=$(git -C "$source" rev-parse --short=12 HEAD)
}

# A program that is built: by `rt ci`, or by a call of ./ptpuni.
put_proved() {
    install -D "$1" "$source/crates/ptpuni/out/ptpuni"
}

put_checked() {
    install -D "$1" "$source/out/checked/ptpuni"
    echo "commit $commit, rattle-kit-of-a-test logic 0123" >"$source/out/checked/version"
}

# (the kit is that of the rt that stands in for it)
make_deb() {
    PATH=$room/bin:$PATH "$source/packaging/make-deb" "$@" 2>&1
}

# A field of a package.
field() {
    dpkg-deb -f "$1" "$2"
}

test_refusals() {
    says "no program" 1 "there is no program" make_deb "$room/debs"
    PTPUNI=$binary says "none but one that PTPUNI names" 1 "there is no program" make_deb --unproved "$room/debs"
    put_checked "$binary"
    install -D "$binary" "$source/out/behind/module.bc"
    says "a program that is not optimised yet" 1 "is not optimised yet" make_deb --unproved "$room/debs"
    rm -r "$source/out/behind"
    says "a program that is not proved" 1 "is not proved: ./ptpuni --prove makes the proved one" make_deb "$room/debs"
    says "another option" 64 "no option --proved" make_deb --proved
    says "no folder" 1 "$room/nowhere: is no folder" make_deb --unproved "$room/nowhere"
    put_proved "$room/program"
    says "a program of no machine" 1 "is no program for amd64 or arm64" make_deb "$room/debs"
    rm -r "$source/crates/ptpuni/out"
    holds "none of these leaves a package" fails compgen -G "$room/debs/*"
}

test_versions() {
    local unproved changed proved later
    says "it is packaged where that is asked for" 0 "0~20270102.030405+$commit~unproved_" make_deb --unproved "$room/debs"
    unproved=$(echo "$room"/debs/*)
    says "and is said not to be proved" 0 "rattle-kit-of-a-test logic 0123, without proofs." field "$unproved" Description
    put_proved "$binary"
    echo changed >"$source/crates.txt"
    touch "$source/crates/ptpuni/out/ptpuni"
    says "a change that is not committed is said" 0 "+$commit+changes_" make_deb "$room/debs"
    changed=$(echo "$room"/debs/*+changes_*)
    says "in words, too" 0 "Made of commit $commit with changes, rattle-kit" field "$changed" Description
    git -C "$source" checkout -q crates.txt
    touch "$source/crates/ptpuni/out/ptpuni"
    says "a proved program" 0 "ptpuni_0~20270102.030405+${commit}_$architecture.deb" make_deb "$room/debs"
    proved=$room/debs/ptpuni_0~20270102.030405+${commit}_$architecture.deb
    says "is said to be proved" 0 "Made of commit $commit, rattle-kit-of-a-test logic 0123, proved." field "$proved" Description
    says "its architecture" 0 "$architecture" field "$proved" Architecture
    says "its libc" 0 "libc6 (>= 2." field "$proved" Depends
    mkdir -p "$room/again"
    make_deb "$room/again" >/dev/null
    holds "the same package comes again, octet by octet" cmp "$proved" "$room/again/${proved##*/}"
    holds "a proved program is later than the other one" dpkg --compare-versions \
        "$(field "$proved" Version)" gt "$(field "$unproved" Version)"
    commit_source 2027-01-02T03:04:06Z
    make_deb "$room/again" >/dev/null
    later=$(echo "$room"/again/*030406*)
    holds "a later commit is a later version" dpkg --compare-versions "$(field "$later" Version)" gt "$(field "$proved" Version)"
    deb=$proved
}

# What is in it: the rights, whose it is, and the place. Examples and pages are those of the checkout.
contents() {
    local it
    cat <<'END'
-rw-r--r-- root/root ./etc/ptpuni/serve.toml
-rwxr-xr-x root/root ./usr/bin/ptpuni
-rwxr-xr-x root/root ./usr/bin/ptpuni-ctl
-rwxr-xr-x root/root ./usr/lib/ptpuni/ptpuni-serve
-rw-r--r-- root/root ./usr/lib/ptpuni/version
-rw-r--r-- root/root ./usr/lib/sysctl.d/60-ptpuni.conf
-rw-r--r-- root/root ./usr/lib/systemd/system/ptpuni.service
-rw-r--r-- root/root ./usr/share/doc/ptpuni/FORMATS.md
-rw-r--r-- root/root ./usr/share/doc/ptpuni/INTEROP.md
-rw-r--r-- root/root ./usr/share/doc/ptpuni/OPERATING.md
-rw-r--r-- root/root ./usr/share/man/man1/ptpuni-ctl.1.gz
-rw-r--r-- root/root ./usr/share/man/man1/ptpuni.1.gz
END
    for it in "$top"/examples/*; do echo "-rw-r--r-- root/root ./usr/share/doc/ptpuni/examples/${it##*/}"; done
}

has_contents() {
    diff <(contents | sort) <(dpkg-deb -c "$deb" | grep -v '^d' | awk '{ print $1, $2, $6 }' | sort)
}

# Every file that the unit and the manual page name by its whole name is there, but those that an operator writes.
names_are_there() {
    local it missing=
    for it in $(cat "$at"/usr/lib/systemd/system/ptpuni.service "$at"/etc/ptpuni/serve.toml \
        <(zcat "$at"/usr/share/man/man1/*.gz) |
        grep -oE '(^|[^a-z])/(usr|etc)/[a-zA-Z0-9./_-]*[a-zA-Z0-9]' | sed 's|^[^/]*||' | sort -u); do
        [ -e "$at$it" ] || [ "$it" = /etc/default/ptpuni ] || missing+=" $it"
    done
    [ -z "$missing" ] || { echo "missing:$missing" && return 1; }
}

test_contents() {
    at=$room/unpacked
    dpkg-deb -x "$deb" "$at"
    holds "the package has these files" has_contents
    holds "the program is the one that was built" cmp "$binary" "$at/usr/bin/ptpuni"
    holds "the launcher is that of the checkout" cmp "$here/ptpuni-serve" "$at/usr/lib/ptpuni/ptpuni-serve"
    holds "ptpuni-ctl is that of the checkout" cmp "$here/ptpuni-ctl" "$at/usr/bin/ptpuni-ctl"
    holds "the examples are those of the checkout" diff -r "$top/examples" "$at/usr/share/doc/ptpuni/examples"
    holds "the settings are those of the checkout, but for comments" diff \
        <(grep -v '^#' "$here/serve.toml") <(grep -v '^#' "$at/etc/ptpuni/serve.toml")
    holds "the rooms for bursts are those of the checkout" cmp "$here/ptpuni-sysctl.conf" "$at/usr/lib/sysctl.d/60-ptpuni.conf"
    holds "the files that are named are there" names_are_there
    holds "no place is one of an installation by hand" fails grep -rq --exclude-dir=doc /usr/local "$at"
    holds "the unit is that of the checkout, but for its head and its places" diff \
        <(sed '1,/^$/d; s|/usr/local/|/usr/|' "$here/ptpuni.service") "$at/usr/lib/systemd/system/ptpuni.service"
    holds "the settings are kept by dpkg as the operator's" [ "$(dpkg-deb -I "$deb" conffiles)" = /etc/ptpuni/serve.toml ]
    says "the launcher tells the version" 0 "ptpuni $(field "$deb" Version): commit " "$at/usr/lib/ptpuni/ptpuni-serve" --version
    says "and so does ptpuni-ctl" 0 "ptpuni $(field "$deb" Version): commit " "$at/usr/bin/ptpuni-ctl" --version
}

# They are refused as they come, since they are nobody's: the operator has to write an address and a clock.
test_settings_of_service() {
    if ! python3 -c 'import tomllib' 2>/dev/null || ! has_loopback; then
        skip "the settings of a service: python3 with tomllib (3.11) is not here, or loopback is not up"
        return
    fi
    says "settings as they come: the clock" 65 "serve.toml:8: clock is all ones" launch --check "$at/etc/ptpuni/serve.toml"
    sed 's/^clock = .*/clock = "00b0aefffe000001"/' "$at/etc/ptpuni/serve.toml" >"$room/mine.toml"
    if knows_addresses && [[ $(ip -4 route get 192.0.2.1 2>/dev/null) != local\ * ]]; then
        says "settings as they come: the address" 69 "ip = 192.0.2.1 is not an address of this machine" \
            launch --check "$room/mine.toml"
    else
        skip "settings as they come: what addresses this machine has is not known, or 192.0.2.1 is one"
    fi
    sed -i "s/^ip = .*/ip = \"$address\"/; \$a event_port = $event\ngeneral_port = $general" "$room/mine.toml"
    says "settings that were written" 0 "all is well" launch --check "$room/mine.toml"
}

test_unpacked_runs() {
    if [ -z "$program" ]; then
        skip "a package that is run: the program is not built (./ptpuni builds it)"
        return
    fi
    says "the program runs" 0 "end 0" "$at/usr/bin/ptpuni" show
    if ! has_loopback; then
        skip "a package that serves: loopback is not up"
        return
    fi
    settings >"$room/good.toml"
    says "the launcher finds the program in PATH" 0 "rounds 1 sent 0 failed 0" \
        env PATH="$at/usr/bin:$PATH" "$at/usr/lib/ptpuni/ptpuni-serve" --once "$room/good.toml"
    says "and looks at the settings" 0 "all is well" \
        env PATH="$at/usr/bin:$PATH" "$at/usr/lib/ptpuni/ptpuni-serve" --check "$room/good.toml"
}

# dpkg in a folder: as anyone, with no other package, and with a systemctl and a sysctl that write down how they are called.
dpkg_there() {
    PATH=$room/calls:$PATH:/usr/sbin:/sbin dpkg --root="$root" --log=/dev/null --force-not-root --force-depends \
        --force-script-chrootless --force-confold "$@" >"$room/dpkg.said" 2>&1 </dev/null || { cat "$room/dpkg.said" && return 1; }
}

left_over() {
    find "$root" -not -type d -not -path "$root/var/lib/dpkg/*" -printf '%P\n'
}

test_installation() {
    local it
    root=$room/root
    mkdir -p "$root"/var/lib/dpkg/{info,updates,triggers} "$room/calls"
    touch "$root"/var/lib/dpkg/{status,available} "$room/called"
    for it in systemctl sysctl; do
        printf '#!/bin/sh\necho %s "$@" >>"%s/called"\n' "$it" "$room" >"$room/calls/$it"
        chmod 755 "$room/calls/$it"
    done
    if ! dpkg_there -i "$deb" >/dev/null && grep -qE "not permitted|Permission denied|superuser" "$room/dpkg.said"; then
        skip "a package that is installed: dpkg may not, even in a folder of its own"
        return
    fi
    holds "it is installed" [ -x "$root/usr/bin/ptpuni" ]
    echo "# mine" >>"$root/etc/ptpuni/serve.toml"
    holds "a later one is installed over it" dpkg_there -i "$(echo "$room"/again/*030406*)"
    holds "and leaves settings that were edited" grep -qx "# mine" "$root/etc/ptpuni/serve.toml"
    holds "it is removed" dpkg_there -r ptpuni
    holds "and leaves the settings alone" [ "$(left_over)" = etc/ptpuni/serve.toml ]
    holds "it is purged" dpkg_there -P ptpuni
    holds "and leaves nothing" [ -z "$(left_over)" ]
    holds "in a folder nothing of this machine is touched" count "$room/called" 0
}

# Runs a script of the package, as on a machine with systemd.
script() {
    : >"$room/called"
    PATH=$room/calls:$PATH "$room/scripts/$1" "${@:2}"
}

# What a script of the package calls on a machine: it starts nothing, and stops the service just where the package goes.
calls() {
    local wanted=$1
    shift
    script "$@" >/dev/null 2>&1 && [ "$(paste -sd, "$room/called")" = "$wanted" ] || { cat "$room/called" && return 1; }
}

test_scripts() {
    local it room_for_bursts="sysctl -q -p /usr/lib/sysctl.d/60-ptpuni.conf"
    dpkg-deb -e "$deb" "$room/scripts"
    # (this machine may have no systemd)
    sed -i "s|/run/systemd/system|$room|" "$room"/scripts/p*
    holds "a first installation" calls "systemctl daemon-reload,$room_for_bursts" postinst configure ""
    holds "an upgrade" calls "systemctl daemon-reload,$room_for_bursts" postinst configure 0~1
    holds "before an upgrade" calls "" prerm upgrade 0~2
    holds "behind an upgrade" calls "" postrm upgrade 0~2
    holds "before it goes" calls "systemctl disable --now ptpuni.service" prerm remove
    holds "when it is gone" calls "systemctl daemon-reload" postrm remove
    holds "when its settings are gone" calls "" postrm purge
    for it in "postinst configure" "prerm remove" "postrm remove"; do
        # shellcheck disable=SC2086
        DPKG_ROOT=$room/root holds "in another root: $it" calls "" $it
    done
    says "an upgrade says that what runs goes on" 0 "goes on with the former program" script postinst configure 0~1
    says "a first installation says what to write" 0 "write /etc/ptpuni/serve.toml" script postinst configure ""
    printf '#!/bin/sh\nexit 1\n' >"$room/calls/sysctl"
    says "room that is not to be had is no fault" 0 "could not be made now" script postinst configure ""
}

# The commands to install it by hand, as the unit's head has them, with a folder in place of the machine's root. The second
# program, for a trial, takes the first one's place.
test_by_hand() {
    local hand=$room/hand line command settings commands=0
    put_checked "$room/program"
    while read -r line; do
        holds "by hand: $line" env -C "$source" bash -c "${line// \// $hand/}"
        commands=$((commands + 1))
    done < <(sed -n 's/^#   \(install [^&(]*\).*/\1/p' "$here/ptpuni.service")
    holds "nine commands" [ "$commands" -eq 9 ]
    holds "the last program is that without proofs" cmp "$room/program" "$hand/usr/local/bin/ptpuni"
    read -r command settings < <(sed -n 's/^ExecStart=//p' "$hand/etc/systemd/system/ptpuni.service")
    holds "the unit's command is there" [ -x "$hand$command" ]
    holds "and its settings" [ -f "$hand$settings" ]
}

test_deb() {
    local source commit deb at root binary architecture
    if ! has dpkg-deb || ! has git; then
        skip "make-deb: dpkg-deb (Debian package dpkg) or git is not here"
        return
    fi
    architecture=$(dpkg --print-architecture)
    binary=${program:-/bin/true}
    make_source
    test_refusals
    test_versions
    test_contents
    test_settings_of_service
    test_unpacked_runs
    test_installation
    test_scripts
    test_by_hand
}
