# The file reaches the disk, and its folder doesn't.
job main
tx
x_create a -> f
x_write_seq f "hello"
x_sync f slot s
commit
tx
x_sync f slot s
store 0 ?s
commit
end
