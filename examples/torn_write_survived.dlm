# A host stops within a write, and leaves garbage in its range. The block has another copy, so what was written before
# stands, and the torn copy counts for nothing while its gate is closed.
cluster 1 4
start 0
submit 0 1 enqueue 1 1 1 EX db

# Call 13 writes the body of the vote: 127 bytes, which become ff. Its gate would have been opened two calls later.
step 0 12
tear 0 ff

# The host comes up again, having forgotten all. The vote was not cast, so the log is empty.
start 0
recover 0 1
step 0 10
show 0

# The client asks again.
submit 0 1 enqueue 1 1 1 EX db
step 0 17
show 0
