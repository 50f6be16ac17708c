#!/usr/bin/env bash
# Runs groups of members and has their logs judged: run.py, with these words.
exec python3 "$(dirname "$0")/run.py" "$@"
