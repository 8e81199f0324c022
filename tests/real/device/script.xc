# A device is no file.
job main
tx
x_open null
x_create null
x_unlink null
commit
end
