#!/usr/bin/env bash
# A walk through the service: starts a cluster of three nodes that send packets of version 3, takes in a tenant, makes a chat group
# of all three, says something at each, reads the log at each, and stops the cluster. It runs gb_serve and gb_ctl, which `./install`
# puts into bin/; SERVE and CTL name others. Word: the base port, 42000 if not given.
set -euo pipefail
top=$(cd "$(dirname "$0")/.." && pwd)
port=${1:-42000}
serve=${SERVE:-$top/bin/gb_serve}
ctl=${CTL:-$top/bin/gb_ctl}
for program in "$serve" "$ctl"; do
    [ -x "$program" ] || {
        echo "walk.sh: there is no program $program: run ./install at the top of the checkout first" >&2
        exit 2
    }
done
work=$(mktemp -d)
server=
trap '[ -z "$server" ] || kill "$server" 2>/dev/null || true; rm -rf "$work"' EXIT

# Three keys of 32 random bytes: of the cluster, of its administrator and of the tenant.
key() { od -An -tx1 -N32 /dev/urandom | tr -d ' \n'; }
admin=$(key)
printf '%s\n%s\n' "$(key)" "$admin" >"$work/server.keys"
printf 'admin %s\ntenant %s\n' "$admin" "$(key)" >"$work/client.keys"

# Each node serves six connections, and each line of gb_ctl below is one; then the cluster stops by itself.
"$serve" --nodes 3 --version 3 --base-port "$port" --sessions 6 <"$work/server.keys" >"$work/printed" &
server=$!
for _ in {1..100}; do
    [ -s "$work/printed" ] && break
    kill -0 "$server" 2>/dev/null || break
    sleep 0.1
done
cat "$work/printed"

ask() { # NODE WORDS..: asks a node, and ends the walk where its reply is a refusal or there is none
    local reply
    reply=$("$ctl" --port "$port" --node "$1" --secrets "$work/client.keys" "${@:2}") || {
        echo "node $1: ${*:2} -> $reply (status $?)"
        exit 1
    }
    echo "node $1: ${*:2} -> ${reply//$'\n'/ }"
}
for node in 0 1 2; do
    ask "$node" tenant 7 4 100 4096 100
done
# The group is made everywhere before it is opened anywhere: a message that comes to a node without the group is lost there.
"$ctl" --port "$port" --secrets "$work/client.keys" group --nodes 0,1,2 7 1 fallack 100 4096 100
ask 0 say 7 1 'hello' --text
ask 1 say 7 1 'hi there' --text
ask 2 say 7 1 'good morning' --text
sleep 1
for node in 0 1 2; do
    ask "$node" fetch 7 1 0 16 --text
    ask "$node" shut 7 1
done
wait "$server"
server=
tail -n 1 "$work/printed"
for node in 0 1 2; do # nothing is bound any more
    if (exec 3<>"/dev/tcp/127.0.0.1/$((port + 64 + node))") 2>/dev/null; then
        echo "node $node still answers"
        exit 1
    fi
done
