# The old name can't be taken away, so the new one goes again. The next rename does both.
job main
tx
x_rename a b
x_open a -> f
commit
tx
x_rename a b
x_read f 9
commit
end
