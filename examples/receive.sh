#!/usr/bin/env bash
# Judges invoices as an access point may: says of each file whether it is accepted, goes back with what was found,
# or is refused since it is no invoice. Ends with 2 where a file couldn't be judged, else with 1 where one wasn't
# accepted.
#
#     bash examples/receive.sh FILE ..
set -u
einv="${EINV:-./einv}"

worst=0
for file in "$@"; do
    told="$("$einv" validate "$file" 2>&1)"
    status=$?
    case "$status" in
        0) echo "accepted: $file" && continue ;;
        1) printf 'returned: %s\n%s\n' "$file" "$told" ;;
        3) echo "refused: ${told#einv: }" ;;
        *) echo "not judged, status $status: ${told:-$file}" && worst=2 ;;
    esac
    [ "$worst" -gt 0 ] || worst=1
done
exit "$worst"
