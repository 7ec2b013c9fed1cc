#!/bin/sh
# One timetable for each task of an array of the batch scheduler Slurm: sbatch --array=1-3 array.sh
# Each task writes files of its own; when all are done, `make` shows the table.
set -eu
timetable=$(ls *.csv | sed -n "${SLURM_ARRAY_TASK_ID}p")
make "${timetable%.csv}.row"
