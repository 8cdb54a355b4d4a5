# A tear has its bytes. The line is named and nothing is run.
cluster 2 4
start 0
tear 0
show 0
