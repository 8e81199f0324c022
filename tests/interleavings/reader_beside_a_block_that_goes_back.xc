# The first job's block overwrites the file and goes back, and what comes behind the block stays: no read may see the block's bytes.
# The first turns stand behind the save.
# turns: 7
# first: 1,1,1
# options:
# options: --patience 0
file a "aaaa"
job going_back
tx
x_open a -> f
save
x_write_ovr f "bb"
x_write_ovr f "bb"
back
keep
x_write_ovr f "c"
commit
end
job reader
tx
x_open a -> f
x_read f 2 -> front
x_read f 2 -> end
commit
end
