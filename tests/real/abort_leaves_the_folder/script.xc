# Each effect is taken back: names, bytes and lengths are as before.
job main
tx
x_open a -> f
x_write_ovr f "HELLO"
x_write_seq f " and more"
x_create c -> g
x_write_seq g "new"
x_rename b d
x_unlink a
abort
commit
end
