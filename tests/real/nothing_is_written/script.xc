# The system takes none of the bytes.
job main
tx
x_open a -> f
x_write_ovr f "HELLO"
x_write_seq f " and more"
x_write_seq f "!"
commit
end
