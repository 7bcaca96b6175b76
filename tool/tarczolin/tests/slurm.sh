#!/bin/bash
# slurm.sh FOLDER COMMAND: runs the command with a Slurm of its own on this machine, a controller, a node and munge, which keep all
# that they write in FOLDER and are stopped behind it. FOLDER's path must be short: munge's socket lies there.
# The node says that it has twelve processors, whatever it has: sbatch --wait looks after 2, 10, 42 seconds whether all tasks have ended.
set -u
folder=$1 command=$2
host=$(hostname -s)
started=
stop() {
  for process in $started; do kill "$process" 2>/dev/null; done
  for process in $started; do wait "$process" 2>/dev/null; done
}
trap stop EXIT
free_port() {
  python3 -c 'import socket; s = socket.socket(); s.bind(("127.0.0.1", 0)); print(s.getsockname()[1])'
}
mkdir -p "$folder/state" "$folder/spool" "$folder/munge"
chmod 755 "$folder"
chmod 700 "$folder/munge"
dd if=/dev/urandom of="$folder/munge/key" bs=128 count=1 2>/dev/null
chmod 600 "$folder/munge/key"
munged --foreground --force --socket="$folder/munge.sock" --key-file="$folder/munge/key" --pid-file="$folder/munge/pid" \
  --seed-file="$folder/munge/seed" --log-file="$folder/munge/log" > "$folder/munged.said" 2>&1 &
started=$!
cat > "$folder/slurm.conf" <<CONF
ClusterName=here
SlurmctldHost=$host(127.0.0.1)
SlurmUser=$(id -un)
SlurmdUser=$(id -un)
AuthType=auth/munge
AuthInfo=socket=$folder/munge.sock
SlurmctldPort=$(free_port)
SlurmdPort=$(free_port)
SlurmctldPidFile=$folder/slurmctld.pid
SlurmdPidFile=$folder/slurmd.pid
SlurmctldLogFile=$folder/slurmctld.log
SlurmdLogFile=$folder/slurmd.log
StateSaveLocation=$folder/state
SlurmdSpoolDir=$folder/spool
ProctrackType=proctrack/linuxproc
TaskPlugin=task/none
SwitchType=switch/none
MpiDefault=none
JobAcctGatherType=jobacct_gather/none
AccountingStorageType=accounting_storage/none
SelectType=select/cons_tres
SelectTypeParameters=CR_CPU
ReturnToService=2
SlurmdParameters=config_overrides
NodeName=$host NodeAddr=127.0.0.1 CPUs=12 State=UNKNOWN
PartitionName=all Nodes=$host Default=YES MaxTime=INFINITE State=UP
CONF
# no control groups are needed, and not every machine lets a node make them
echo 'CgroupPlugin=cgroup/v1' > "$folder/cgroup.conf"
export SLURM_CONF=$folder/slurm.conf
for _ in $(seq 50); do [ -S "$folder/munge.sock" ] && break; sleep 0.1; done
slurmctld -D -f "$SLURM_CONF" > "$folder/slurmctld.said" 2>&1 &
started="$! $started"
slurmd -D -f "$SLURM_CONF" -N "$host" > "$folder/slurmd.said" 2>&1 &
started="$! $started"
for _ in $(seq 300); do
  sinfo --noheader --format=%t 2>/dev/null | grep -q '^idle$' && break
  sleep 0.1
done
if ! sinfo --noheader --format=%t 2>&1 | grep -q '^idle$'; then
  echo 'slurm.sh: no node is ready' >&2
  tail -n 5 "$folder"/*.said "$folder"/*.log >&2
  exit 3
fi
bash -c "$command"
