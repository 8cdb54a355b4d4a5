# A line show ends the place of the lines log. The line is named and nothing is run.
cluster 2 4
log 0 enqueue 1 1 1 EX db
show 0
log 0 status 1 2 1
start 0
