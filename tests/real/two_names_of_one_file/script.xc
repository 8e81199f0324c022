# While a file is held under one name, its other name is a fault, whatever is asked of it.
job main
tx
x_open a -> f
x_open b
x_create b
x_rename b c
x_rename c b
x_unlink b
x_write_seq f "!"
commit
tx
x_unlink a
commit
tx
x_open b
x_seek f 0
x_read f 9
commit
end
