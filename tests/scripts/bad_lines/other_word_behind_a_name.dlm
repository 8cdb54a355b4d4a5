# Behind a name stands the word noqueue or nothing. The line is named and nothing is run.
cluster 2 4
start 0
submit 0 1 enqueue 1 1 1 EX db wait
show 0
