#!/bin/sh
# Cuts one end's bytes out of a recording of term5250, as hex text for t5250:
#
#     cut_recording.sh RECORDING | t5250 show
#     cut_recording.sh RECORDING station | t5250 show --answers
set -eu
case "$#:${2:-host}" in
1:host | 2:host | 2:station) ;;
*)
    echo 'usage: cut_recording.sh RECORDING [host|station]' >&2
    exit 2
    ;;
esac
exec awk -v side="${2:-host}" '$2 == side { print $3 }' <"$1"
