# With 32 descriptors 29 files can be open: what comes after is a fault. An abort gives its own back.
job main
tx
x_create a0
x_create a1
x_create a2
x_create a3
x_create a4
x_create a5
x_create a6
x_create a7
x_create a8
x_create a9
x_create a10
x_create a11
x_create a12
x_create a13
x_create a14
x_create a15
commit
tx
x_create b0
x_create b1
x_create b2
x_create b3
x_create b4
x_create b5
x_create b6
x_create b7
x_create b8
x_create b9
x_create b10
x_create b11
x_create b12
x_create b13
x_pipe
x_pair
abort
commit
tx
x_create c -> f
x_write_seq f "hello"
x_sync f
x_pipe -> p
x_write_pipe p "x"
x_pair
commit
end
