# Overwrites of two files, some over others: a compensation that failed blocks those of the same file, and no others.
file a "abcdefgh"
file b "uvwxyz"
grain 3
job main
tx
x_open a -> f
x_open a -> g
x_open b -> h
x_write_ovr f "ABCDEF"
x_write_ovr h "UVWX"
x_write_ovr g "1234567"
x_write_ovr f "8"
abort
commit
tx
x_open a -> f
x_open b -> h
x_read f 9 -> d
x_read h 9 -> e
commit
end
