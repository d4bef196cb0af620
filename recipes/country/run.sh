#!/bin/sh
# Runs the workflow, or goes on with it. usage: run.sh CONFIG.yaml [OPTION OF SNAKEMAKE]...
# as: run.sh country.yaml --cores 4
#     run.sh country.yaml --slurm --jobs 50                       (Slurm with its accounting)
#     run.sh country.yaml --cluster 'sbatch -o /dev/null' --jobs 50
# The status is 0 where every commune was carried and every border compared. Needs Debian's snakemake
# (tried with 7.21) and gdal-bin.
set -eu
[ $# -ge 2 ] || { sed -n '2,7s/^# //p' "$0" >&2; exit 2; }
here=$(CDPATH='' cd -- "$(dirname -- "$0")" && pwd)
config=$1
shift
# The workflow holds a lock of its own, which ends with its process; Snakemake's would outlive a power cut.
# What is up to date is decided by dates alone: the plan has all else.
exec snakemake --snakefile "$here/Snakefile" --configfile "$config" \
    --nolock --rerun-incomplete --keep-going --rerun-triggers mtime "$@"
