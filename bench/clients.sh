#!/usr/bin/env bash
# Tries the clients: those trials of tests/trials.py that run the Python package, gb_web beside clients that are slow, silent or wrong
# (tests/doors.py), and the chat page in headless Chromium. Words are passed on, as `--programs DIR` for other programs than those of bin/.
set -eu
exec "${PYTHON:-python3}" "$(dirname "$0")/../tests/trials.py" "$@" \
    --only python python-served python-rooms python-asyncio python-types package client notifications replicated-map doors page
