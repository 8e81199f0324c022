# A job that takes its overwrite back, and one that meets it then. Each attempt is the only one, so the second job gives up
# where it meets the first.
# options: --schedule 1,1,1,1,2,2,2,1,2,2,2,1 --attempts 1 --undo-tries 2
file a "hello"
grain 2
job one
tx
x_open a -> f
x_write_ovr f "HEL"
abort
commit
tx
x_open a -> f
x_read f 9 -> d
commit
end
job two
tx
x_open a -> f
x_read f 2 -> d
commit
tx
x_open a -> f
x_write_ovr f "J"
commit
end
