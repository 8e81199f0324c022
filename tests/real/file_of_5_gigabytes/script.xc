# Its length is no u32. Its first bytes can be read.
job main
tx
x_open big -> f
x_len f
x_read f 3
x_write_ovr f "x"
x_write_seq f "x"
commit
end
