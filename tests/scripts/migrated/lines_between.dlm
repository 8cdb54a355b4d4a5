# Comments and empty lines may stand between the lines of the log.
cluster 1 3

# what was moved
log 0 enqueue 1 1 1 EX db

# client 1 gives its lock up
log 0 release 1 2 1 value 0123456789abcdef0123456789abcdef

# events
start 1
recover 1 1
step 1 16
show 1
