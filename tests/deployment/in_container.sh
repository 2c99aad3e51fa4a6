#!/bin/bash
# What the scripts share that tests/deployment/systemd runs inside its container. They install packages and stop
# services: so they refuse to run anywhere else.
# Each check is a line in /out/checks: its name, what came and what was expected, with tabs between.
MANAGER=
[ ! -r /run/host/container-manager ] || read -r MANAGER < /run/host/container-manager
if [ "$MANAGER" != systemd-nspawn ] || [ "$0" != /mnt/inside.sh ]; then
    echo "$0 changes the machine that it runs on: run tests/deployment/systemd, which boots a container for it" >&2
    exit 64
fi
exec > /out/log 2>&1
UNITS="issuer@0 issuer-standby@0"
JOURNAL=/var/lib/issuer/0/journal

check() { printf '%s\t%s\t%s\n' "$1" "$2" "$3" >> /out/checks; }
# Asks the lines of a file. Prints how many answers of each kind came.
ask() { issuer-ask --partitions 1 --seconds 120 --broker-file /etc/issuer/broker < "/mnt/lines$1" 2>&1 | cut -d' ' -f1 | sort | uniq -c | xargs; }
state() { systemctl is-active $UNITS | xargs; }
# Waits until both units run, as long as a busy machine may take.
settled() { for _ in $(seq 60); do [ "$(state)" = "active active" ] && break; sleep 0.5; done; state; }
node_settled() { for _ in $(seq 60); do [ "$(systemctl is-active issuer-node)" = active ] && break; sleep 0.5; done; systemctl is-active issuer-node; }
main_of() { systemctl show -P MainPID "$1"; }
# The unit that has a host, and the host.
active() { for unit in $UNITS; do for child in $(cat /proc/"$(main_of $unit)"/task/*/children 2>/dev/null); do echo "$unit $child"; done; done | head -1; }
active_unit() { active | cut -d' ' -f1; }
host() { active | cut -d' ' -f2; }
