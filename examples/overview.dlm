# Three hosts over three disks, of which one is lost and one host stopped: the log, and the table that each host makes of it. It is README's picture.
cluster 3 8
start 0
start 1
start 15
gone 2

# With a disk lost an attempt makes 35 calls. Host 0's command is at slot 0, and granted.
submit 0 1 enqueue 1 1 1 EX db
step 0 35

# Host 1 learns that by its first attempt, and puts its own command behind it: lock 2 waits.
submit 1 3 enqueue 2 1 2 EX db
step 1 70
submit 15 3 enqueue 3 1 3 PR config
step 15 105
stop 1
show 15
