#!/bin/bash
# Says how a job of SLURM is, as Snakemake asks: status.sh JOB
# Where the controller has forgotten the job, the accounting is asked. While nobody answers, the job may be running.
if answer=$(scontrol --oneliner show job "$1" 2>&1); then
    state=$(sed -n 's/.* JobState=\([A-Z_]*\).*/\1/p' <<< "$answer")
elif [[ $answer == *"Invalid job id"* ]]; then
    state=$(sacct --noheader --allocations --parsable2 --format=State --jobs "$1" 2> /dev/null)
else
    state=RUNNING
fi
case $state in
    COMPLETED) echo success ;;
    PENDING | CONFIGURING | RUNNING | COMPLETING | SUSPENDED | REQUEUED | RESIZING) echo running ;;
    *) echo failed ;;
esac
