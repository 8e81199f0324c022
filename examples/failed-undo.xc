# Two overwrites that are to be taken back, over a host that restores two bytes and then fails three times.
file a "hello"
grain 2
fault restore 2
fault restore 3
fault restore 4
job main
tx
x_open a -> f
x_write_ovr f "HE"
x_write_ovr f "LLO"
abort
commit
tx
x_open a -> f
x_read f 9 -> d
commit
end
