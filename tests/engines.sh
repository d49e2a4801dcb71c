#!/bin/sh
# Runs each `sh` block of docs/PROGRAMS.md and examples/README.md as it is printed there, over logs of 150,000 lines of which two are
# rejected, and compares what it writes, byte for byte, with what one process writes, and the status with what those pages say. The
# hosts of GNU parallel are two SSH servers in network namespaces that are made here; Dask has two worker processes. A command for
# many machines also runs while a host or a worker dies in the middle of a part. Prints a line for each run and for what was left
# out, cleans up, and ends within two minutes, with status 1 where something differs.
#
# usage: sh tests/engines.sh [PROGRAM]       Debian's packages: parallel, openssh-server, iproute2, python3-distributed
set -u
[ -n "${ENGINES_LIMIT:-}" ] || ENGINES_LIMIT=110 exec timeout -k 5 110 sh "$0" "$@"

top=$(cd "$(dirname "$0")/.." && pwd)
program=$(readlink -f "${1:-$top/crates/jtape_main/out/jtape_main}")
[ -x "$program" ] || { echo "$program is not there: run make" >&2; exit 1; }
room=$(mktemp -d) || exit 1
cd "$room" || exit 1
client=jtape-client-$$
spaces=
made_folder=

# What runs in a namespace that was made here was started here.
# shellcheck disable=SC2046,SC2317
clean() {
    for space in $spaces; do
        kill -KILL $(ip netns pids "$space") 2> /dev/null
        ip netns delete "$space"
    done
    [ -z "$made_folder" ] || rmdir "$made_folder"
    rm -rf "$room"
}

different=0
say() { echo "engines: $*"; }
wrong() { different=1; say "WRONG: $*"; }
trap clean EXIT
trap 'wrong "stopped"; exit 1' HUP INT TERM
there() { command -v "$1" > /dev/null; }

# runs STATUS COMMAND [BEFORE..]: runs the command by a shell, and compares its status and output.
runs() {
    wanted=$1 text=$2
    shift 2
    rm -f out.jsonl
    "$@" sh -c "$text" 2> err
    status=$?
    if [ "$status" -eq "$wanted" ] && cmp -s one.jsonl out.jsonl; then
        say "as one process, status $status: $text"
    else
        wrong "status $status, wanted $wanted: $text"
        cmp one.jsonl out.jsonl
        sed 's/^/    /' err | head -n 20
    fi
}

# dying FOLDER DEATH: puts a program into the folder in the place of jtape-lines. Its first call writes a part of its output, and
# then DEATH comes; every other call does what jtape-lines does.
dying() {
    rm -rf died "$1/jtape-lines"
    cat > "$1/jtape-lines" << END
#!/bin/sh
mkdir "$room/died" 2> /dev/null || exec "$top/examples/jtape-lines"
"$top/examples/jtape-lines" | head -c 1000000
sleep 0.3
$2
END
    chmod +x "$1/jtape-lines"
}

# programs FOLDER: the programs that a host has.
programs() {
    mkdir -p "$1"
    ln -sf "$program" "$1/jtape"
    ln -sf "$top/examples/jtape-lines" "$1/jtape-lines"
}

# hosts: two hosts and a client, each in a namespace of its own, and a link from the client to each host.
hosts() {
    ip netns add "$client" 2> /dev/null || return 1
    spaces=$client
    [ -d /run/sshd ] || { mkdir /run/sshd && made_folder=/run/sshd; }
    ssh-keygen -q -t ed25519 -N '' -f key
    printf '10.99.* %s\n' "$(cat key.pub)" > known_hosts
    # What a user has in ~/.ssh/config; by the last three lines a host that is silent is given up.
    cat > ssh_config << END
IdentityFile $room/key
UserKnownHostsFile $room/known_hosts
ConnectTimeout 2
ServerAliveInterval 1
ServerAliveCountMax 2
END
    number=0
    for host in alpha beta; do
        space=jtape-$host-$$
        number=$((number + 1))
        ip netns add "$space" || return 1
        spaces="$spaces $space"
        ip link add "to-$host" netns "$client" type veth peer name eth0 netns "$space" || return 1
        ip -n "$client" address add "10.99.$number.1/30" dev "to-$host"
        ip -n "$space" address add "10.99.$number.2/30" dev eth0
        ip -n "$client" link set "to-$host" up
        ip -n "$space" link set eth0 up
        printf 'Host %s\nHostName 10.99.%s.2\n' "$host" "$number" >> ssh_config
        programs "$host"
        cat > "$host/sshd_config" << END
HostKey $room/key
AuthorizedKeysFile $room/key.pub
StrictModes no
UsePAM no
PidFile none
SetEnv PATH=$room/$host:/usr/sbin:/usr/bin:/sbin:/bin
END
        ip netns exec "$space" /usr/sbin/sshd -f "$room/$host/sshd_config" -E "$room/$host/log" || wrong "no SSH server on $host"
    done
}

# The logs: an object of nine members a line, but for the first line of the first log and the last of the last, so that two parts
# have a rejected line however the logs are cut.
mkdir logs parallel dask killed
awk 'BEGIN {
    for (i = 0; i < 150000; i++) {
        log_file = "logs/" int(i / 50000) ".jsonl"
        if (i == 0 || i == 149999) print "{\"line\": " i ",}" > log_file
        else printf "{\"line\": %d, \"at\": \"2026-01-01T00:00:00Z\", \"level\": \"info\", \"host\": \"alpha\", \"path\": \"/a/b\", " \
            "\"status\": 200, \"seconds\": %d.25, \"tags\": [\"one\", {\"two\": null}], \"text\": \"caf\303\251 \\\"%d\\\"\"}\n",
            i, i % 60, i > log_file
    }
}'
cat logs/*.jsonl > big.jsonl
programs bin
ln -s "$top/examples" examples
export PATH="$room/bin:$PATH" TMPDIR="$room" DASK_TEMPORARY_DIRECTORY="$room/dask"
export PARALLEL_HOME="$room/parallel" PARALLEL_SSH="ssh -F $room/ssh_config"
jtape lines < big.jsonl > one.jsonl
[ "$?,$(grep -c '^!' one.jsonl),$(wc -l < one.jsonl)" = 1,2,150000 ] || wrong "one process"

# A failed allocation has jtape's status of a rejected line. To jtape-lines only the first is a failure.
jtape-lines < big.jsonl | cmp - one.jsonl || wrong "jtape-lines"
jtape-lines < logs/0.jsonl > out.jsonl || wrong "jtape-lines, a rejected line: status $?"
# shellcheck disable=SC3045
(ulimit -v 20000 && jtape-lines < big.jsonl) > out.jsonl 2> err && wrong "jtape-lines, a failed allocation: status 0"
grep -q OutOfMemory err || wrong "jtape-lines, a failed allocation is not reported"

with_parallel=no with_hosts=no with_dask=no
if ! there parallel; then
    say "left out: GNU parallel, which is not installed"
else
    with_parallel=yes
    if ! [ -x /usr/sbin/sshd ] || ! there ssh || ! there ip; then
        say "left out: hosts, as openssh-server or iproute2 is not installed"
    elif ! hosts; then
        say "left out: hosts, as no network namespaces can be made here"
    else
        with_hosts=yes
    fi
fi
if /usr/bin/python3 -c 'import distributed' 2> /dev/null; then
    with_dask=yes
else
    say "left out: Dask, as python3-distributed is not installed"
fi

awk '/^```sh$/ { inside = 1; next } /^```/ { inside = 0 } inside' "$top/docs/PROGRAMS.md" "$top/examples/README.md" > commands
while read -r command <&3; do
    case $command in
    *--sshlogin*)
        [ "$with_hosts" = yes ] || continue
        runs 0 "$command" ip netns exec "$client"
        dying beta 'ip link set eth0 down; exec sleep 60'
        runs 0 "$command # and a host loses its link" ip netns exec "$client"
        [ -d died ] || wrong "no host lost its link"
        ip -n "jtape-beta-$$" link set eth0 up
        programs beta
        ;;
    *lines.py*)
        [ "$with_dask" = yes ] || continue
        runs 0 "$command"
        # shellcheck disable=SC2016
        dying killed 'kill -KILL $PPID'
        runs 0 "$command # and a worker is killed" env PATH="$room/killed:$PATH"
        [ -d died ] || wrong "no worker was killed"
        ;;
    *)
        [ "$with_parallel" = no ] || runs 2 "$command"
        ;;
    esac
done 3< commands

# To an engine a rejected line is a failed part, where nothing is between: parallel runs it again and prints it in the end,
# Dask stops.
[ "$with_parallel" = no ] || runs 2 'parallel --pipe --block 10M -k --retries 3 jtape lines < big.jsonl > out.jsonl'
if [ "$with_dask" = yes ]; then
    examples/dask/lines.py 'jtape lines' logs/*.jsonl > out.jsonl 2> err && wrong "Dask, a rejected line: status 0"
    grep -q 'returned non-zero exit status 1' err || wrong "Dask does not say which status it took as failure"
fi
exit "$different"
