"""The texts of the Debian package: its control file, scripts, copyright and overrides."""

CONTROL = """\
Package: issuer
Version: {version}
Architecture: amd64
Maintainer: {maintainer}
Installed-Size: {size}
Depends: libc6 (>= 2.34), passwd, python3 (>= 3.9), python3-pika
Recommends: python3-cryptography, python3-decorator, python3-prometheus-client, python3-pykcs11
Suggests: prometheus, python3-aiohttp, python3-jinja2, python3-rich, rabbitmq-server, softhsm2
Section: admin
Priority: optional
Description: authorisation host for EMV chip cards
 The host checks a card's cryptogram, decides by a table, answers with a
 cryptogram of its own and records each decision before it answers. The
 program is proved against its specification by the checker of its
 toolchain; the package has the record of the proof beside it.
 .
 With it come a gateway for switches that speak ISO 8583, a service for
 each partition of cards behind RabbitMQ, and commands for publishers and
 operators.
"""
LAUNCHER = """\
#!/bin/sh
# Runs the proved program of this package, or nothing: a machine in production builds none.
exec /usr/lib/issuer/issuer --never-build "$@"
"""
AFTER_INSTALL = """\
#!/bin/sh
set -e
if [ "$1" = configure ]; then
    if ! getent passwd issuer > /dev/null; then
        useradd --system --user-group --home-dir /var/lib/issuer --no-create-home --shell /usr/sbin/nologin issuer
    fi
    if [ -d /run/systemd/system ]; then
        systemctl --system daemon-reload
    fi
fi
"""
BEFORE_REMOVE = """\
#!/bin/sh
set -e
# (a version before this one left compiled modules there)
find /usr/lib/issuer -depth -type d -name __pycache__ -exec rm -rf {} + || true
if [ "$1" = remove ] && [ -d /run/systemd/system ]; then
    deb-systemd-invoke stop issuer-status.service issuer-gateway.service issuer-node.service
    deb-systemd-invoke stop 'issuer@*.service' 'issuer-standby@*.service'
fi
"""
OVERRIDES = """\
# The record of the proof names the program's bytes as they are.
issuer: unstripped-binary-or-object *
# Configurations with keys are there: its owner alone opens it.
issuer: non-standard-dir-perm 0700 != 0755 *etc/issuer/*
"""
COPYRIGHT = """\
issuer: the issuer's authorisation host for EMV chip cards

Copyright: {year} the authors of issuer
License: Apache-2.0

The program also has code of the library of the toolchain that built it, and
of crates that come with that toolchain, each with a licence of its own.

On Debian systems the text of the Apache License, version 2.0, is in
/usr/share/common-licenses/Apache-2.0.
"""
