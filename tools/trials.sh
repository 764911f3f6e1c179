# What trials in sh share: how they answer `--help`, counting, and a port. A script of a folder
# beside this one takes it in, before it goes to another folder.
. "$(dirname "$0")/../tools/usage.sh"
passed=0
failed=0

# Counts one more that passed, where the first argument is 0, or that failed.
counted() {
    if [ "$1" -eq 0 ]; then
        passed=$((passed + 1))
    else
        failed=$((failed + 1))
        echo "failed: $2"
    fi
}

# Says how many there were of each. Whether none failed.
sums_up() {
    echo "$passed passed, $failed failed"
    [ "$failed" -eq 0 ]
}

# A port that is free now, and that a site with a key may have: one below 1024, from this number on.
# Nothing where this user may have none.
key_port() {
    python3 -c '
import socket, sys
for port in range(int(sys.argv[1]), 1024):
    try:
        socket.socket(socket.AF_INET, socket.SOCK_DGRAM).bind(("127.0.0.1", port))
    except OSError:
        continue
    print(port)
    break' "$1"
}

# A port that is free now.
free_port() {
    python3 -c 'import socket; s = socket.socket(socket.AF_INET, socket.SOCK_DGRAM); s.bind(("127.0.0.1", 0)); print(s.getsockname()[1])'
}
