# No file can be shortened, so the append stays.
job main
tx
x_open a -> f
x_write_ovr f "HE"
x_write_seq f " and more"
abort
commit
end
