#!/usr/bin/env bash
# How long a turn of the loop takes with few tasks and with many. Started by hand at the top of the repository:
# bench/loop.sh. It needs rt and a machine with nothing else to do.
cd "$(dirname "$0")/.." && source bench/least.sh

programs bench

machine
for tasks in 10 100 1000 4096; do
    turn=$(per_unit 4000000 "$(least "$work/bench" tasks "$tasks" 100000)" "$(least "$work/bench" tasks "$tasks" 4100000)")
    echo "tasks $tasks: a turn $turn ns"
done
