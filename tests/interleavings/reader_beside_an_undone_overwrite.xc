# The first job's overwrites stand in the file until they are undone, and no read may see them.
file a "aaaa"
job aborting
tx
x_open a -> f
x_write_ovr f "bb"
x_write_ovr f "bb"
abort
commit
end
job reader
tx
x_open a -> f
x_read f 2 -> front
x_read f 2 -> back
commit
end
