#!/usr/bin/env bash
# Runs a sweep in parts on several machines, by GNU parallel over ssh, and writes what the whole sweep says. Each machine has the program `wireline`.
# usage: sweep_by_parallel.sh HOST,HOST.. PARTS FOLDER PLAN [OPTION..]    a host is a name for ssh, with N/ in front for N parts at a time; : is this one
# FOLDER gets a file for each part. Called again the script runs the parts that failed, and no others.
set -euo pipefail
hosts=$1 parts=$2 folder=$3 plan=$4 program=${WIRELINE:-wireline}
mkdir -p "$folder"
seq "$parts" | parallel --quote --sshlogin "$hosts" --basefile "$plan" --joblog "$folder/log" --resume-failed --results "$folder/part.{}" \
  "$program" sweep "$plan" "${@:5}" --part "{}/$parts" > /dev/null
seq -f "$folder/part.%.0f" "$parts" | tr '\n' '\0' | xargs -0 cat | "$program" sweep --join
