#!/bin/sh
#SBATCH --job-name=jass
#SBATCH --array=1-2
#SBATCH --ntasks=1
#SBATCH --output=machine.%a.log
# Searches the parts of a collection as a Slurm array job: sbatch --wait shards.slurm. Each task searches its parts as one:
# task 1 shard.1.idx and shard.2.idx, task 2 the next two. They and queries.txt lie in the folder that it is sent from,
# and `jass` on the PATH.
parts=2
task=$SLURM_ARRAY_TASK_ID
indexes=$(seq -f shard.%g.idx $((task * parts - parts + 1)) $((task * parts)))
exec jass shards $parts $indexes queries.txt "machine.$task.run" k=1000 > "machine.$task.reports"
