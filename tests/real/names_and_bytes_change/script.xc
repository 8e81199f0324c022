# An overwrite, a rename and an unlink, and a new file under the name that went. The old file stays for who has it open.
job main
tx
x_open a -> f
x_seek f 6
x_write_ovr f "WORLD"
x_rename old new
commit
tx
x_unlink a
commit
tx
x_create a -> g
x_write_seq g "again"
x_seek f 0
x_read f 100
x_open new -> h
x_len h -> n
commit
end
