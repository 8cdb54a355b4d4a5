# The digits of a value are small letters. The line is named and nothing is run.
cluster 2 4
start 0
submit 0 1 release 1 2 3 value 0123456789ABCDEF0123456789ABCDEF
show 0
