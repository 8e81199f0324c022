# The folder has room for one name more. The maker takes it, so the mover's file can't get its old name again.
job mover
tx
x_rename a b
abort
commit
end
job maker
tx
x_create c
commit
tx
x_open b -> f
x_read f 9
commit
end
