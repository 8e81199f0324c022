# An overwrite that is taken back, and a read behind it. One try is allowed, so each fault of a compensation leaves something.
# options: --undo-tries 1
file a "hello"
grain 1
job main
tx
x_open a -> f
x_write_ovr f "HELLO"
abort
commit
tx
x_open a -> f
x_read f 9 -> d
commit
end
