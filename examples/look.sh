#!/usr/bin/env bash
# A look at the service in a minute or two, without proof: look.py says what it does.
exec python3 "$(dirname "$0")/look.py" "$@"
