# options: --undo-tries 2
# A file that is made, filled and renamed twice, and all of it taken back; then what is found under each name.
job main
tx
x_create a -> f
x_write_seq f "made"
x_rename a b
x_write_seq f " and moved"
x_rename b c
abort
commit
tx
x_open a -> f
x_open b -> g
x_open c -> h
x_read h 20 -> d
x_create a -> k
commit
end
