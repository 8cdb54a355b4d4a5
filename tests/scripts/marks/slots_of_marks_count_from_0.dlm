# The slots that may be marked are counted from 0: the first command is in slot 0, and its marking begins.
cluster 1 1
start 3
submit 3 1 enqueue 1 5 4 NL a
step 3 17
mark 3 0
