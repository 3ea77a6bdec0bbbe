#!/usr/bin/env bash
# Runs a sweep in 16 parts as a job array of Slurm, with a file for each part. When all have ended: cat parts/*.json | wireline sweep --join
# usage: sbatch sweep_by_slurm.sh PLAN [OPTION..]    a part that failed: sbatch --array=K sweep_by_slurm.sh PLAN [OPTION..]
#SBATCH --array=1-16
#SBATCH --cpus-per-task=1
set -euo pipefail
parts=16 part=$SLURM_ARRAY_TASK_ID
mkdir -p parts
"${WIRELINE:-wireline}" sweep "$1" "${@:2}" --workers "${SLURM_CPUS_PER_TASK:-1}" --part "$part/$parts" -o "parts/$part.json"
