# A file may have two bytes more. An append stops there, and what it wrote is cut or stays.
job main
tx
x_open a -> f
x_write_seq f "hello"
abort
commit
tx
x_open a -> f
x_write_seq f "hello"
commit
tx
x_write_seq f "hello"
commit
end
