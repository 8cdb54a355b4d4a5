# Two clients want db for themselves, each through a host of its own. The second waits, and has the lock once the first lets go.
cluster 3 8
start 0
start 1

# Over three disks an attempt makes 51 calls. Client 1 is granted lock 1.
submit 0 1 enqueue 1 1 1 EX db
step 0 51

# Host 1 learns that with its first attempt, and puts its own client's command behind it with the second.
submit 1 1 enqueue 2 1 2 EX db
step 1 102
show 1

# Client 1 releases its lock: host 0 too learns the other command first.
submit 0 1 release 1 2 1
step 0 102

# Host 1 learns the release, and that no more is there: 30 calls tell it that a slot is empty.
recover 1 1
step 1 81
show 1
