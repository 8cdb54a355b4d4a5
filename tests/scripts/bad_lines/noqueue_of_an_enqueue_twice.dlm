# The word noqueue stands there once. The line is named and nothing is run.
cluster 2 4
start 0
submit 0 1 enqueue 1 1 1 EX db noqueue noqueue
show 0
