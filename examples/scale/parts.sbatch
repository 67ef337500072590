#!/bin/sh
# A job array for Slurm: each task searches one part on one processor, and a task that fails is
# queued again.
#
#   sbatch --array=1-8 examples/scale/parts.sbatch FOLDER SOURCE --header FILE [OPTION ..]
#   roundc together FOLDER/part-*
#
# The array's tasks are numbered from 1. FOLDER is one that all nodes share.
#SBATCH --job-name=roundc
#SBATCH --cpus-per-task=1
#SBATCH --requeue
#SBATCH --output=part-%a.log
set -eu
folder=$1
shift
if examples/scale/part "$SLURM_ARRAY_TASK_ID" "$SLURM_ARRAY_TASK_COUNT" "$folder" "$@"; then
    exit 0
fi
if [ "${SLURM_RESTART_COUNT:-0}" -lt 3 ]; then
    scontrol requeue "$SLURM_JOB_ID"
fi
exit 1
