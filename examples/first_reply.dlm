# Client 1 asks host 0 for lock 10 on db, in the exclusive mode. Over one disk the command is in the log with the seventeenth call.
cluster 1 4
start 0
submit 0 1 enqueue 1 1 10 EX db
step 0 17
