# Two clients read db together, and each wants to write it without letting go: both conversions wait for the other's
# held mode, for good. A client that lets go of its lock, or cancels its conversion, ends it.
cluster 1 8
start 0

submit 0 1 enqueue 1 1 1 PR db
step 0 17
submit 0 1 enqueue 2 1 2 PR db
step 0 17

# A conversion keeps the mode that it holds until it is granted.
submit 0 1 convert 1 2 1 EX
step 0 17
submit 0 1 convert 2 2 2 EX
step 0 17
show 0
blocking 0

# Client 2 gives up its lock, and client 1 is granted what it waited for.
submit 0 1 release 2 3 2
step 0 17
show 0
blocking 0
