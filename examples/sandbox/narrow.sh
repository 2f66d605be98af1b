#!/bin/sh
# Runs COMMAND.. in a sandbox that reaches the server's render socket and nothing else of the server.
folder=$(dirname "$DRM_SERVER_RENDER")
exec bwrap --unshare-all --die-with-parent --ro-bind / / --dev /dev --proc /proc \
    --tmpfs "$folder" --bind "$DRM_SERVER_RENDER" "$DRM_SERVER_RENDER" "$@"
