# A log without an end begins with no command.
cluster 3 8 epochs

log 0 enqueue 1 1 1 EX db
start 0
