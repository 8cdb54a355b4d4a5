# A busy host takes no look, and answers nothing to it: its submission goes on.
cluster 1 2
start 0
submit 0 1 enqueue 1 1 1 EX db
step 0 5
look 0
step 0 12
