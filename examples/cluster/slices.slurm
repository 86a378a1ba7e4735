#!/bin/sh
#SBATCH --job-name=pl_csv
#SBATCH --cpus-per-task=1
#SBATCH --output=slices-%A_%a.log
#
# One task of an array of Slurm: the slice whose number the array gives. Build the index once, and say how many slices there are:
#
#   pl_csv seek build 1000000 in.csv --schema "$schema" > in.index
#   sbatch --array=0-1999 examples/cluster/slices.slurm in.csv in.index 1000000 out --schema "$schema"
#
# The parts joined in the order of their numbers are what `pl_csv` writes of the whole file.
set -eu
input=$1 index=$2 records=$3 folder=$4
shift 4
[ "$SLURM_ARRAY_TASK_ID" = 0 ] || set -- "$@" --out-no-header
mkdir -p "$folder"
out=$folder/part-$(printf %09d "$SLURM_ARRAY_TASK_ID").csv
pl_csv seek slice $((SLURM_ARRAY_TASK_ID * records)) "$records" "$input" "$index" "$@" >"$out.new"
mv "$out.new" "$out"
