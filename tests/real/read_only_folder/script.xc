# A file can be read. None can be written, made or named.
job main
tx
x_open a -> f
x_write_ovr f "HE"
x_read f 9
x_write_seq f "!"
x_create b
x_rename a b
x_unlink a
commit
end
