#!/bin/sh
# Runs COMMAND.. in a sandbox that can write nothing. It makes a mistake, which docs/guides/sandbox.md finds.
exec bwrap --unshare-all --die-with-parent --ro-bind / / --dev /dev --proc /proc "$@"
