#!/bin/bash
# A Slurm cluster of four nodes on this machine meters sixteen captures by examples/slurm, and joins their streams.
#
#     checks/slurm.sh
#
# It starts munged, slurmctld and four slurmd with files of their own in a temporary folder, and ends them by their pid
# files, also when a row fails. Eight captures are what `make` writes, cut by packets, and eight what
# bench/make_traffic.c writes. The first task that comes to its capture writes a beginning of the stream and is then
# killed: the streams of the others must be there, but not its own, and no join. Submitted again, one task meters. What
# is joined must be the very bytes of metering all packets as one capture, and four parts together just its records. One
# line for each row; the status is not 0 where any differs. Without root or one of the programs it is skipped with one
# line.
#
# ROMTYALIG and ROMTYALIG_JOIN are the programs' paths (bin/romtyalig and bin/romtyalig-join unless set). PACKETS is
# how many packets each of the two kinds has (80000 unless set). Debian packages: slurm-wlm, munge; gcc.
# shellcheck disable=SC2317 # rows call functions by their names
set -u

top=$(dirname "$(cd "$(dirname "$0")" && pwd)")
program=$(realpath "${ROMTYALIG:-$top/bin/romtyalig}")
joiner=$(realpath "${ROMTYALIG_JOIN:-$top/bin/romtyalig-join}")
packets=${PACKETS:-80000}
export LC_ALL=C

if [ "$(id -u)" -ne 0 ]; then
    echo "skipped: Slurm, not root"
    exit 0
fi
for needed in munged mungekey slurmctld slurmd sbatch squeue "${CC:-cc}"; do
    if ! command -v "$needed" >/dev/null; then
        echo "skipped: Slurm, no $needed"
        exit 0
    fi
done
for needed in "$program" "$joiner"; do
    if [ ! -x "$needed" ]; then
        echo "no program at $needed" >&2
        exit 2
    fi
done

work=$(mktemp -d) || exit 2
chmod 755 "$work"
export SLURM_CONF=$work/slurm.conf
# The file names that daemons begin with, the last to be ended first.
daemons="n1 n2 n3 n4 ctld munged"

# Ends what was started, by the pid files, and waits for it.
# shellcheck disable=SC2329 # it is called by the trap
clean() {
    local name pid turn
    [ ! -e "$work/run/ctld.pid" ] || scancel --user=root 2>/dev/null
    for name in $daemons; do
        if ! pid=$(cat "$work/run/$name.pid" 2>/dev/null) || ! kill "$pid" 2>/dev/null; then continue; fi
        for turn in $(seq 100); do
            kill -0 "$pid" 2>/dev/null || break
            [ "$turn" -lt 100 ] || kill -KILL "$pid"
            sleep 0.1
        done
    done
    rm -rf "$work"
}
trap clean EXIT
trap 'exit 2' HUP INT TERM

differ=0
row() {
    if "${@:2}"; then
        echo "same: $1"
    else
        echo "DIFFERS: $1"
        differ=$((differ + 1))
    fi
}

# Waits until a command does well, at most so many seconds: wait_for SECONDS COMMAND..
wait_for() {
    local end=$((SECONDS + $1))
    until "${@:2}" >/dev/null 2>&1; do
        [ "$SECONDS" -lt "$end" ] || return 1
        sleep 0.2
    done
}

# The cluster.

write_configuration() {
    local host
    host=$(uname -n)
    cat >"$SLURM_CONF" <<CONFIGURATION
ClusterName=local
SlurmctldHost=${host%%.*}(127.0.0.1)
AuthType=auth/munge
AuthInfo=socket=$work/munge/socket
CryptoType=crypto/munge
SlurmUser=root
SlurmdUser=root
StateSaveLocation=$work/state
SlurmdSpoolDir=$work/spool/%n
SlurmctldPidFile=$work/run/ctld.pid
SlurmdPidFile=$work/run/%n.pid
SlurmctldLogFile=$work/log/ctld.log
SlurmdLogFile=$work/log/%n.log
SlurmctldPort=16817
ProctrackType=proctrack/linuxproc
TaskPlugin=task/none
SelectType=select/cons_tres
SelectTypeParameters=CR_Core
JobAcctGatherType=jobacct_gather/none
AccountingStorageType=accounting_storage/none
ReturnToService=2
MpiDefault=none
NodeName=n[1-4] NodeHostname=${host%%.*} NodeAddr=127.0.0.1 Port=17001-17004 CPUs=1 State=UNKNOWN
PartitionName=all Nodes=n[1-4] Default=YES MaxTime=INFINITE State=UP
CONFIGURATION
}

start_munge() {
    mkdir "$work/munge"
    mungekey --create --keyfile="$work/munge/key" && chown -R munge: "$work/munge" && chmod 755 "$work/munge" &&
        setpriv --reuid=munge --regid=munge --clear-groups munged --key-file="$work/munge/key" \
            --socket="$work/munge/socket" --pid-file="$work/munge/pid" --log-file="$work/munge/log" \
            --seed-file="$work/munge/seed" &&
        wait_for 20 test -s "$work/munge/pid" && ln -s "$work/munge/pid" "$work/run/munged.pid"
}

start_slurm() {
    local node
    slurmctld && wait_for 30 test -s "$work/run/ctld.pid" || return
    for node in n1 n2 n3 n4; do
        slurmd -N "$node" || return
    done
    # shellcheck disable=SC2016 # the inner shell counts
    wait_for 120 sh -c '[ "$(sinfo -h -t idle -o %D)" = 4 ]'
}

# The captures, and all their packets as one.

make_captures() {
    "${CC:-cc}" -O2 -o "$work/make_traffic" "$top/bench/make_traffic.c" -lm &&
        "$program" make --seed 1 --packets "$packets" >"$work/made" 2>/dev/null &&
        "$work/make_traffic" headers "$packets" 1 >"$work/traffic" 2>/dev/null &&
        python3 - "$work" <<'PYTHON'
import struct
import sys
from pathlib import Path

WORK = Path(sys.argv[1])


def pieces(name: str, count: int) -> list[bytes]:
    """The file header of a capture, and its records in so many pieces."""
    octets, places = (WORK / name).read_bytes(), [24]
    while places[-1] < len(octets):
        places.append(places[-1] + 16 + struct.unpack_from("<L", octets, places[-1] + 8)[0])
    cuts = [places[(len(places) - 1) * piece // count] for piece in range(count + 1)]
    return [octets[:24]] + [octets[one:other] for one, other in zip(cuts, cuts[1:])]


def over_ethernet(records: bytes) -> bytes:
    """The records of IP packets as records of frames."""
    out, place = [], 0
    while place < len(records):
        second, part, captured, original = struct.unpack_from("<LLLL", records, place)
        frame = bytes(12) + b"\x08\x00" + records[place + 16:place + 16 + captured]
        out.append(struct.pack("<LLLL", second, part, captured + 14, original + 14) + frame)
        place += 16 + captured
    return b"".join(out)


made, traffic = pieces("made", 8), pieces("traffic", 8)
(WORK / "captures").mkdir()
for name, (header, *parts) in (("made", made), ("traffic", traffic)):
    for number, part in enumerate(parts):
        (WORK / "captures" / f"{name}-{number}.pcap").write_bytes(header + part)
(WORK / "one.pcap").write_bytes(traffic[0] + b"".join(traffic[1:]) + over_ethernet(b"".join(made[1:])))
PYTHON
}

# The first task that comes here writes a beginning of its stream and waits; the others meter.
write_meter() {
    cat >"$work/meter" <<METER
#!/bin/sh
if mkdir "$work/held" 2>/dev/null; then
    "$program" "\$@" | head -c 1000
    echo \$\$ >"$work/held/pid.part"
    mv "$work/held/pid.part" "$work/held/pid"
    exec sleep 1000
fi
exec "$program" "\$@"
METER
    chmod +x "$work/meter"
}

submit() {
    METER="$work/meter meter" JOIN="$joiner join" PARTS=$1 bash -eu "$work/commands" >"$work/jobs"
}
job_of() { awk -v name="$1" '$1 == name { print $2 }' "$work/jobs"; }
are_gone() { [ -z "$(squeue -h -o %i)" ]; }
count() { find "$work/streams" -maxdepth 1 -name "$1" | wc -l; }
fifteen_there() { [ "$(count '*.ipfix')" -eq 15 ]; }

# The commands are those of the document.
read_commands() {
    awk -v mark="<!-- run: slurm, " 'index($0, mark) == 1 { found = 1; next }
        found && /^```sh/ { inside = 1; next }
        inside && /^```/ { exit }
        inside' "$top/docs/SCALE.md" >"$work/commands"
    [ -s "$work/commands" ]
}

one_is_killed() {
    submit 1 && [ -n "$(job_of join)" ] && wait_for 600 test -s "$work/held/pid" && wait_for 600 fifteen_there &&
        kill -KILL "$(cat "$work/held/pid")" && wait_for 120 are_gone && fifteen_there && [ ! -e "$work/whole.ipfix" ]
}
one_is_left() {
    submit 1 && wait_for 600 are_gone && [ "$(count '*.ipfix')" -eq 16 ] && [ -s "$work/whole.ipfix" ] &&
        [ "$(find "$work/streams/logs" -name "meter-$(job_of meter)-*.log" | wc -l)" -eq 1 ]
}
nothing_is_left() {
    local before
    before=$(stat -c %Y.%i "$work/whole.ipfix")
    submit 1 && wait_for 600 are_gone && [ -z "$(job_of meter)" ] &&
        [ "$(stat -c %Y.%i "$work/whole.ipfix")" = "$before" ]
}
whole_is_one() {
    "$program" meter <"$work/one.pcap" >"$work/wanted.ipfix" 2>/dev/null && cmp "$work/whole.ipfix" "$work/wanted.ipfix"
}
parts_are_whole() {
    submit 4 && wait_for 600 are_gone || return
    for part in 1 2 3 4; do
        "$program" show <"$work/whole.$part.ipfix" 2>/dev/null || return
    done | sort >"$work/of_parts"
    "$program" show <"$work/whole.ipfix" 2>/dev/null | sort | cmp - "$work/of_parts"
}

by_time_outs() {
    local capture name
    rm -r "$work/streams" "$work"/whole*.ipfix && mkdir "$work/other" || return
    TIMEOUTS="--idle 1 --active 2" submit 1 && wait_for 600 are_gone || return
    for capture in "$work"/captures/*.pcap; do
        name=$(basename "$capture" .pcap).ipfix
        "$program" meter --idle 1 --active 2 <"$capture" >"$work/other/$name" 2>/dev/null &&
            cmp "$work/streams/$name" "$work/other/$name" || return
    done
    "$joiner" join --idle 1 --active 2 "$work"/other/*.ipfix 2>/dev/null | cmp - "$work/whole.ipfix" &&
        ! cmp -s "$work/whole.ipfix" "$work/wanted.ipfix"
}

mkdir "$work/run" "$work/log" "$work/state" "$work/spool"
ln -s "$top/examples" "$work/examples"
write_configuration
write_meter
cd "$work" || exit 2
if ! read_commands || ! make_captures || ! start_munge || ! start_slurm; then
    echo "DIFFERS: the cluster doesn't start"
    tail -n 3 "$work"/log/*.log "$work/munge/log" 2>/dev/null | cut -c1-200
    exit 1
fi
row "a task that is killed leaves no stream, and nothing is joined" one_is_killed
row "submitted again, one task meters, and all is joined" one_is_left
row "submitted again, nothing is done" nothing_is_left
row "sixteen captures joined, and all packets metered as one" whole_is_one
row "the records of four parts, and of the whole" parts_are_whole
row "with other time-outs" by_time_outs
exit $((differ > 0))
