# Late calls of a commit, and one transaction that aborts where the first sync failed. A fault at a late call aborts nothing,
# and its slot tells the next transactions.
file a "1"
file b "2"
job main
tx
x_open a -> f
x_unlink b slot s
x_sync f slot t
x_unlink a
commit
tx
abort if ?t = 4
x_write_seq f "3"
x_sync f slot t
commit
tx
store 0 ?s
store 1 ?t
x_open a -> g
x_open b -> h
commit
end
