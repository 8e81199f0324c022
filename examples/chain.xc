fault name_back 1
job main
tx
x_create a -> f
x_rename a b
x_rename b c
abort
commit
tx
x_open c -> f
commit
end
