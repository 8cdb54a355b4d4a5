# The table knows 32 clients. One more is refused until one of them is forgotten, by another one or by itself.
cluster 1 40
start 0
submit 0 1 status 0 1 5
step 0 17
submit 0 1 status 8 1 5
step 0 17
submit 0 1 status 16 1 5
step 0 17
submit 0 1 status 24 1 5
step 0 17
submit 0 1 status 32 1 5
step 0 17
submit 0 1 status 40 1 5
step 0 17
submit 0 1 status 48 1 5
step 0 17
submit 0 1 status 56 1 5
step 0 17
submit 0 1 status 64 1 5
step 0 17
submit 0 1 status 72 1 5
step 0 17
submit 0 1 status 80 1 5
step 0 17
submit 0 1 status 88 1 5
step 0 17
submit 0 1 status 96 1 5
step 0 17
submit 0 1 status 104 1 5
step 0 17
submit 0 1 status 112 1 5
step 0 17
submit 0 1 status 120 1 5
step 0 17
submit 0 1 status 128 1 5
step 0 17
submit 0 1 status 136 1 5
step 0 17
submit 0 1 status 144 1 5
step 0 17
submit 0 1 status 152 1 5
step 0 17
submit 0 1 status 160 1 5
step 0 17
submit 0 1 status 168 1 5
step 0 17
submit 0 1 status 176 1 5
step 0 17
submit 0 1 status 184 1 5
step 0 17
submit 0 1 status 192 1 5
step 0 17
submit 0 1 status 200 1 5
step 0 17
submit 0 1 status 208 1 5
step 0 17
submit 0 1 status 216 1 5
step 0 17
submit 0 1 status 224 1 5
step 0 17
submit 0 1 status 232 1 5
step 0 17
submit 0 1 status 240 1 5
step 0 17
submit 0 1 status 248 1 5
step 0 17
submit 0 1 status 1 1 5
step 0 17
submit 0 1 forget 1 1 8
step 0 17
submit 0 1 forget 0 2 8
step 0 17
submit 0 1 status 1 1 5
step 0 17
submit 0 1 status 8 1 5
step 0 17
submit 0 1 forget 16 2 16
step 0 17
submit 0 1 status 8 1 5
step 0 17
submit 0 1 status 16 2 5
step 0 17
show 0
