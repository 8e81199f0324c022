# No name can be taken away, so a new file stays, without its bytes.
job main
tx
x_create a -> f
x_write_seq f "hello"
abort
commit
tx
x_unlink a
commit
end
