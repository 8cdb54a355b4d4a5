# Hosts beat, and each beat suggests the least host whose counter has moved since the one before it.
cluster 3 4
start 0
start 1
start 2
# A first beat has nothing to compare with, and suggests its own host.
beat 2
step 2 27
# Hosts 0 and 1 beat.
beat 0
step 0 27
beat 1
step 1 27
# So the next beat of host 2 suggests the least of them.
beat 2
step 2 27
# Host 0 stops, and host 1 goes on.
stop 0
beat 1
step 1 27
# Now it is host 1, which takes over.
beat 2
step 2 27
submit 1 1 purge 1 1 0
step 1 51
