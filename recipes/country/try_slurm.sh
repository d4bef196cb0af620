#!/bin/sh
# Tries the workflow on a Slurm of its own: two nodes on this machine, one of which dies in the middle.
# usage: try_slurm.sh [TINMOVE [TINPLACES [COMMUNES [BATCH [RESULT]]]]]     as root
# The built programs, else the launchers; how many communes, or the folder that make.py made them in; how
# many are a job by Slurm; the results without Slurm, where they are there already, by the same programs.
# All that it makes and starts is in a folder that it removes: munge and Slurm with their own sockets,
# ports and files. The summary is compared byte for byte with that of a run without Slurm. Needs Debian's
# snakemake, gdal-bin, python3-gdal, slurm-wlm and munge.
# The last line is 'the same summary by Slurm'; the status is 1 where it is not.
set -eu
here=$(CDPATH='' cd -- "$(dirname -- "$0")" && pwd)
absolute() { case $1 in /*) echo "$1" ;; *) echo "$PWD/$1" ;; esac; }
tinmove=$(absolute "${1:-$here/../../tinmove}")
tinplaces=$(absolute "${2:-$here/../../tinplaces}")
communes=${3:-60}
[ ! -d "$communes" ] || communes=$(absolute "$communes")
batch=${4:-8}
result=${5:+$(absolute "$5")}
[ "$(id -u)" = 0 ] || { echo 'try_slurm.sh: only root can start the daemons' >&2; exit 1; }
for tool in snakemake ogr2ogr munged slurmctld slurmd sbatch sinfo; do
    command -v $tool >/dev/null || { echo "try_slurm.sh: $tool is missing" >&2; exit 1; }
done
folder=$(mktemp -d)
cd "$folder"
export SLURM_CONF="$folder/slurm.conf"

# The processes that were started here: all work in the folder. Of a node: its daemon, steps and jobs.
of_node() {
    for it in /proc/[0-9]*; do
        case $(readlink "$it/cwd" 2>/dev/null) in "$folder" | "$folder"/*) ;; *) continue ;; esac
        [ "${it#/proc/}" != $$ ] || continue
        if [ "$1" = any ] || { tr '\0' '\n' <"$it/environ" | grep -qxE "(SLURMD_NODENAME|TRY_SLURM_NODE)=$1"; } 2>/dev/null; then
            echo "${it#/proc/}"
        fi
    done
}
# Each process is ended by its number; a number that is gone is no fault.
end() { for it in "$@"; do kill -9 "$it" 2>/dev/null || true; done; }
finish() {
    munged=$(cat "$folder/munged.pid" 2>/dev/null) || munged=none
    [ "$(cat "/proc/$munged/comm" 2>/dev/null)" != munged ] || end "$munged"
    for turn in 1 2; do
        # shellcheck disable=SC2046
        end $(of_node any)
        [ "$turn" = 2 ] || sleep 1
    done
    cd /
    rm -rf "$folder"
}
trap finish EXIT
trap 'exit 1' INT TERM HUP
host=$(hostname)

cat >slurm.conf <<END
ClusterName=try
SlurmctldHost=$host(127.0.0.1)
SlurmctldPort=16817
SlurmUser=root
SlurmdUser=root
AuthType=auth/munge
AuthInfo=socket=$folder/munge.socket
CredType=cred/munge
StateSaveLocation=$folder/state
SlurmdSpoolDir=$folder/spool-%n
SlurmctldPidFile=$folder/slurmctld.pid
SlurmdPidFile=$folder/slurmd-%n.pid
SlurmctldLogFile=$folder/slurmctld.log
SlurmdLogFile=$folder/slurmd-%n.log
SlurmctldTimeout=10
SlurmdTimeout=10
ProctrackType=proctrack/linuxproc
TaskPlugin=task/none
SelectType=select/cons_tres
SelectTypeParameters=CR_Core
SchedulerParameters=sched_interval=5,bf_interval=5
ReturnToService=2
MpiDefault=none
AccountingStorageType=accounting_storage/none
JobAcctGatherType=jobacct_gather/none
NodeName=n[0-1] NodeHostname=$host NodeAddr=127.0.0.1 Port=[17001-17002] CPUs=2 RealMemory=2000
PartitionName=all Nodes=ALL Default=YES MaxTime=INFINITE State=UP
END
mkdir state spool-n0 spool-n1
chmod 755 "$folder"
dd if=/dev/urandom of=munge.key bs=1 count=128 status=none
chmod 600 munge.key
munged --key-file="$folder/munge.key" --socket="$folder/munge.socket" --pid-file="$folder/munged.pid" \
    --log-file="$folder/munged.log" --seed-file="$folder/munge.seed" --force 2>munged.out
slurmctld -f slurm.conf
for node in n0 n1; do TRY_SLURM_NODE=$node slurmd -N $node -f slurm.conf; done
for turn in $(seq 60); do
    [ "$(sinfo -h -N -t idle -o %N 2>/dev/null | sort -u | wc -l)" = 2 ] && break
    [ "$turn" -lt 60 ] || { echo 'FAILED: the nodes do not come up' >&2; cat slurmctld.log >&2; exit 1; }
    sleep 1
done
sinfo -N

configure() { printf '%s\n' "tin: tin.json" "communes: communes" "out: $1" "epsg: 2056" "name: egrid" \
    "tinmove: '$tinmove'" "tinplaces: '$tinplaces'" "batch: $2" >"$1.yaml"; }
if [ -d "$communes" ]; then
    ln -s "$communes/tin.json" "$communes/communes" .
else
    "$here/make.py" . --communes "$communes" --columns 12 --rows 10 --control 400 --seed 7 --drawings 7 --packages 11 --odd-names
fi
configure local 8
configure slurm "$batch"
if [ "$result" ]; then
    ln -s "$result" local
else
    begin=$(date +%s)
    "$here/run.sh" local.yaml --cores 4 >local.log 2>&1 || { cat local.log >&2; exit 1; }
    echo "without Slurm: $(($(date +%s) - begin)) s"
fi

begin=$(date +%s)
"$here/run.sh" slurm.yaml --jobs 4 --latency-wait 30 --restart-times 2 \
    --cluster 'sbatch --requeue --mem 400 -o /dev/null' >slurm.log 2>&1 &
workflow=$!
# A node dies once some communes are carried and while jobs run on it.
while [ "$(find slurm -name record.json -printf . 2>/dev/null | wc -c)" -lt 5 ] ||
    [ -z "$(squeue -h -t running -w n1 -o %A)" ]; do
    kill -0 "$workflow" 2>/dev/null || { echo 'FAILED: it ended before a node died'; cat slurm.log; exit 1; }
    sleep 0.1
done
echo "node n1 dies with $(squeue -h -t running -w n1 -o %A | wc -l) jobs, and $(find slurm -name record.json -printf . | wc -c) communes"
# shellcheck disable=SC2046
end $(of_node n1)
sleep 15
sinfo -N
TRY_SLURM_NODE=n1 slurmd -N n1 -f slurm.conf
wait "$workflow" || { cat slurm.log slurmctld.log >&2; exit 1; }
echo "by Slurm, with a node that dies: $(($(date +%s) - begin)) s"
for file in summary.html summary.csv borders.csv; do cmp "local/$file" "slurm/$file"; done
# One run takes at most 64 MiB, and what is compared with RESULT may be larger.
[ "$result" ] || "$here/one_run.py" slurm
echo
echo 'the same summary by Slurm'
