#!/bin/sh
# To be sourced, by `. "$(dirname "$(readlink -f "$0")")/folder.sh"`: $root, the repository; $folder, one for the script's own
# files, which goes when it ends.
# shellcheck disable=SC2034 # for the script that sources this
root=$(CDPATH='' cd -- "$(dirname -- "$(readlink -f -- "$0")")/.." && pwd)
folder=$(mktemp -d)
trap 'rm -rf "$folder"' EXIT
trap 'exit 130' INT
trap 'exit 143' TERM
trap 'exit 129' HUP
