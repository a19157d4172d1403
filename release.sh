#!/usr/bin/env bash
# Makes the release, of programs, libraries and modules, with a manifest of what they were made of:
# without words, or with one of --prove, --after-ci, --check, --compile CRATE and --archive, as
# tools/release.py says.
exec python3 -B "$(dirname -- "$(readlink -f -- "${BASH_SOURCE[0]}")")/tools/release.py" "$@"
