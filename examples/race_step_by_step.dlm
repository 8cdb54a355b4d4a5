# Two hosts race for slot 0 of the log, on one disk. Each may make two attempts.
cluster 1 4
start 0
start 1
submit 0 2 enqueue 1 1 1 EX db
submit 1 2 enqueue 2 1 2 EX db

# Host 0 promises with ballot 1, and sees nobody.
step 0 10

# Host 1 finds that, and promises with its least ballot above it, which is 2.
step 1 10

# Host 0 votes at ballot 1, and reads the row once more: there is ballot 2, so it is outrun. It still has a try.
step 0 7

# Host 1 votes at ballot 2, and nobody has passed it: its command has the slot.
step 1 7

# Host 0 tries the slot again, with ballot 17. It finds two votes, its own at 1 and host 1's at 2. It has to propose the one
# of the greater ballot, and learns that command.
step 0 17

# Its own command goes to the next slot, and waits there for the lock that host 1's client holds.
step 0 17
show 0
