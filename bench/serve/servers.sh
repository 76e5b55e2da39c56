# Sourced by `many` and `tail`: starts `riak_node serve` or Redis, and asks it by `many.c`.
. "$(dirname "${BASH_SOURCE[0]}")/../program.sh"
workers=${WORKERS:-4}
work=$(mktemp -d)
server=
trap '[ -z "$server" ] || kill "$server" 2>/dev/null || true; rm -rf "$work"' EXIT

ulimit -n "$(ulimit -Hn)"
cc -O2 -pthread bench/serve/many.c -o "$work/many"

# Waits until a line that matches stands in a file, ten seconds at most.
await() {
    for _ in $(seq 1000); do
        grep -m 1 -o "$1" "$2" && return
        sleep 0.01
    done
    echo "no '$1' in $2" >&2
    return 1
}

has_redis() { command -v redis-server >/dev/null; }

# Starts a server: its process is $server, and its port $port. A node takes further options.
start() { # riak|redis [OPTION..]
    # the last server's line is gone, also where the new one's shell is late
    : >"$work/out"
    if [ "$1" = redis ]; then
        port=6399
        redis-server --port "$port" --save '' --appendonly no --maxclients 15000 >"$work/out" &
        server=$!
        await 'Ready to accept connections' "$work/out" >/dev/null
        return
    fi
    "$node" serve --port 0 --workers "$workers" "${@:2}" >"$work/out" 2>/dev/null &
    server=$!
    port=$(await 'listening 127.0.0.1:[0-9]*' "$work/out" | grep -o '[0-9]*$')
}

end() {
    kill "$server" 2>/dev/null || true
    wait "$server" 2>/dev/null || true
    server=
}

# What `many.c` prints of a server that is started for it.
asked() { # riak|redis get|put CONNECTIONS IDLE DEPTH SECONDS [RATE]
    start "$1"
    timeout 120 "$work/many" "$1" "$port" "$server" "${@:2}" || echo failed
    end
}
