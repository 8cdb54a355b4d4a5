# A mark of a slot that the host has not learned is refused at once.
cluster 1 2
start 2
mark 2 1
