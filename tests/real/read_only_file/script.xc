# A file that may only be read is opened for reading. Its name may change and go, as the folder may be written.
job main
tx
x_open a -> f
x_read f 2
x_write_ovr f "LLO"
x_write_seq f "!"
x_len f
x_sync f
commit
tx
x_rename a b
abort
commit
tx
x_unlink a
commit
tx
x_unlink only_written
x_open only_written
commit
end
