#!/bin/bash
# Runs the workflow on a SLURM of one node, by its profile, and compares its table with that of all files counted at
# once; then a part is refused:
#   tests/workflow_slurm.sh
# The daemons stand in a folder of the test and are ended with it; munged needs a user of its own, so this is for root.
# It needs bin/kcount, and Debian's snakemake, seqkit, gnuplot, SLURM and munge.
set -euo pipefail
here=$(cd "$(dirname "$0")" && pwd)
program=$here/../bin/kcount
for tool in snakemake seqkit gnuplot sbatch slurmctld slurmd munged; do
    command -v $tool > /dev/null || {
        echo "workflow-slurm: $tool isn't installed:"
        echo "  apt-get install --no-install-recommends snakemake seqkit gnuplot-nox slurm-wlm munge"
        exit 1
    }
done
[ "$(id -u)" = 0 ] || { echo "workflow-slurm: only root can start its daemons"; exit 1; }
[ -x "$program" ] || { echo "no bin/kcount: run make build first"; exit 1; }
work=$(mktemp -d)
daemons=()
end_all() {
    local daemon
    [ ! -e "$work/slurm.conf" ] || scancel --user root 2> /dev/null || true
    for daemon in "${daemons[@]}"; do kill "$daemon" 2> /dev/null || true; done
    for daemon in "${daemons[@]}"; do wait "$daemon" 2> /dev/null || true; done
    rm -rf "$work"
}
trap end_all EXIT
fails() {
    echo "workflow-slurm: $1"
    for log in log slurmctld.log slurmd.log munged.log; do
        [ ! -s "$work/$log" ] || { echo "-- $log"; tail -n 15 "$work/$log"; }
    done
    find "$work" -path '*/logs/*' -name '*.log' ! -name cut.log -size +0 -exec tail -n 3 -v {} +
    exit 1
}
# soon WHAT COMMAND..: waits up to half a minute until the command succeeds
soon() {
    local what=$1 tries
    shift
    for tries in $(seq 1 60); do
        ! "$@" > /dev/null 2>&1 || return 0
        sleep 0.5
    done
    fails "$what"
}

# munged's folder is its user's alone, and those above may be passed by all
chmod 755 "$work"
install -d -o munge -g munge -m 755 "$work/munge"
head -c 128 /dev/urandom > "$work/munge/key"
chown munge:munge "$work/munge/key"
chmod 400 "$work/munge/key"
node=$(hostname -s)
memory=2500
cat > "$work/slurm.conf" <<CONF
ClusterName=test
SlurmctldHost=$node(127.0.0.1)
SlurmctldPort=26817
SlurmdPort=26818
AuthType=auth/munge
AuthInfo=socket=$work/munge/socket
SlurmUser=root
StateSaveLocation=$work/state
SlurmdSpoolDir=$work/spool
SlurmctldPidFile=$work/slurmctld.pid
SlurmdPidFile=$work/slurmd.pid
ProctrackType=proctrack/linuxproc
TaskPlugin=task/none
MpiDefault=none
ReturnToService=2
SelectType=select/cons_tres
SelectTypeParameters=CR_CPU_Memory
SchedulerParameters=sched_interval=1
NodeName=$node NodeAddr=127.0.0.1 CPUs=2 RealMemory=$memory
PartitionName=all Nodes=$node Default=YES
CONF
mkdir "$work/state" "$work/spool"
export SLURM_CONF=$work/slurm.conf
setpriv --reuid=munge --regid=munge --clear-groups munged --foreground --num-threads=2 \
    --key-file="$work/munge/key" --socket="$work/munge/socket" --pid-file="$work/munge/pid" \
    --log-file="$work/munge/log" --seed-file="$work/munge/seed" > "$work/munged.log" 2>&1 &
daemons+=($!)
soon "munged did not start" test -S "$work/munge/socket"
slurmctld -D -f "$SLURM_CONF" > "$work/slurmctld.log" 2>&1 &
daemons+=($!)
slurmd -D -N "$node" -f "$SLURM_CONF" > "$work/slurmd.log" 2>&1 &
daemons+=($!)
soon "the node did not come up" bash -c "sinfo --noheader --format=%t | grep -qx idle"

mkdir "$work/reads"
cd "$work"
cp "$here/../examples/reads.fa" "$here/../examples/shotgun.fq" reads
gzip -c reads/shotgun.fq > reads/again.fq.gz
# flow RESULTS OPTION..: runs the workflow, each job as one of SLURM
flow() {
    local results=$1
    shift
    timeout 300 snakemake --snakefile "$here/../workflow/Snakefile" --profile "$here/../workflow/profiles/slurm" \
        --latency-wait 5 "$@" --config "reads=reads/*" "results=$results" "kcount=$program" k=15 threads=1 \
        reads_per_part=120 > log 2>&1
}
flow results || fails "a run failed"
"$program" count -m 15 -C -o at-once.kct reads/*.fa reads/*.fq <(zcat reads/again.fq.gz)
cmp -s at-once.kct results/table.kct || fails "the table isn't that of all files counted at once"
# Each job went through SLURM: five counts, four sums, three cuts and three reports. (The list of the parts is made by
# Snakemake's own process.)
jobs=$(find .snakemake -name 'slurm-*.log' | wc -l)
[ "$jobs" = 15 ] || fails "SLURM ran $jobs jobs"

# A part that is refused stops the run, with kcount's line.
sed -i '82s/./@/5' reads/shotgun.fq
! flow refused --restart-times 0 || fails "a run with a refused part ended well"
[ "$(cat refused/logs/reads_shotgun.fq/part_001.fq.log)" = 'kcount: 2: bad base, source 1, line 82' ] \
    || fails "the log of the refused part is another"
[ ! -e refused/table.kct ] || fails "a run with a refused part has a table"
echo "workflow-slurm: $jobs jobs of SLURM gave the table of all files, and a refused part stopped the run"
