#!/bin/sh
# The facts of the parts of a workspace, as a job array of Slurm, a part for each task:
#
#     bzlq facts --split 64 -o parts
#     sbatch --array=1-64 facts.sbatch parts
#     bzlq join -o whole.db parts/*.facts
#
# The folder is one that all nodes see, and bq is on the PATH of the nodes, or where BQ says. Status 3 is an answer: a label into another part has
# a fault there, which `bzlq join` takes out.
#SBATCH --job-name=bq-facts
#SBATCH --cpus-per-task=1
#SBATCH --mem=1G
#SBATCH --requeue
set -u
part=$(ls "$1"/part-*.bundle | sed -n "${SLURM_ARRAY_TASK_ID}p")
"${BQ:-bq}" --jobs 1 --large --max-steps 100000000 --bundle "$part" --facts > "${part%.bundle}.new"
status=$?
[ $status = 0 ] || [ $status = 3 ] || exit $status
mv "${part%.bundle}.new" "${part%.bundle}.facts"
