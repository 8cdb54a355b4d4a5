# Every fault of a script in one run, over three disks: a call that fails, a host that stops, one that stops within a write, a disk
# that crashes, and one that is lost. What was acknowledged before is there at the end.
cluster 3 4
start 0
start 1
submit 0 1 enqueue 1 1 1 EX db
step 0 20

# A call of disk 1 fails, so host 0 goes on without it. Then disk 0 crashes: the calls on it are refused under its old boot number,
# and without two of three disks there is no majority.
fail 0 00
step 0 3
crash 0 ff
step 0 12

# The client asks again. Host 0 attaches all disks anew.
submit 0 1 enqueue 1 1 1 EX db
step 0 51

# Host 1 learns the command, and stops within a write of its own, which leaves garbage behind a shut gate.
submit 1 1 enqueue 2 1 2 PR db
step 1 62
tear 1 a5

# Disk 2 is lost for good. Host 0 stops, and host 1, up again, finds what was acknowledged on the two others.
gone 2
stop 0
start 1
recover 1 1
step 1 56
show 1
