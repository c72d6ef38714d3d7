#!/usr/bin/env bash
# Answers a POST of an invoice with what `einv validate --json` says of it: a script for the CGI of any web server (RFC 3875).
# 200 where nothing is wrong, 422 where something is found or it is no invoice, 500 where it couldn't be judged.
set -u
einv="${EINV:-einv}"
answer="$(timeout 60 "$einv" validate --json - 2>&1)"
case "$?" in
    0) status="200 OK" kind=application/json ;;
    1) status="422 Unprocessable Content" kind=application/json ;;
    3) status="422 Unprocessable Content" kind="text/plain; charset=utf-8" ;;
    *) status="500 Internal Server Error" kind="text/plain; charset=utf-8" ;;
esac
printf 'Status: %s\r\nContent-Type: %s\r\n\r\n%s\n' "$status" "$kind" "$answer"
