# There are at most as many lines log as slots; those that are passed over do not count. The line is named and nothing is run.
cluster 2 1
log 0 enqueue 1 1 1 EX db
# one more

log 0 status 1 2 1
start 0
