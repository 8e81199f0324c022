file a "hello"
job reader
tx
x_open a -> f
x_read f 9 -> d
commit
end
job writer
tx
x_open a -> f
x_write_ovr f "HE"
x_write_ovr f "LLO"
commit
end
