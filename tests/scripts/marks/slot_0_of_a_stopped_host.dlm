# A line may name slot 0; where the host is stopped the event does not apply.
cluster 1 1
mark 3 0
